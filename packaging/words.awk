# Answers the command lines that need no built program: help, the version, and wrong arguments. packaging/help.txt has the help of the
# program and of each command, exactly as the program prints it, and therefore their options.
#
#   awk -v help=packaging/help.txt -v version=TEXT -f packaging/words.awk -- WORD..
#
# Exit status: that of the program, or 100 if only the program can answer.

function end(status) {
    exit status
}

function refuse(what) {
    print "{\"fault\":\"usage\"}"
    fflush()
    printf "error: %s\n\n%s\n\nFor more information, try '--help'.\n", what, usage[command] >"/dev/stderr"
    end(4)
}

# Reads the help, and of each command the options: what stands for a value, if they take one, and what they are.
function read_help(line, name, words) {
    while ((getline line <help) > 0) {
        if (line ~ /^== /) {
            name = substr(line, 4)
            text[name] = ""
            continue
        }
        text[name] = text[name] line "\n"
        if (line ~ /^Usage: /)
            usage[name] = line
        if (line ~ /^ +(-., )?--/) {
            sub(/^ +(-., )?/, "", line)
            split(line, words, / +/)
            takes[name, words[1]] = words[2] ~ /^</ ? words[2] : ""
            about[name, words[1]] = line
        }
    }
}

# Whether an option's value is a number in its range, or one of its names.
function is_value(option, value, words, bounds) {
    words = about[command, option]
    sub(/^[^ ]+ +<[^>]*> +/, "", words)
    sub(/ \[default: .*/, "", words)
    if (takes[command, option] == "<N>") {
        match(words, /[0-9a-z]+ to [0-9^]+$/)
        split(substr(words, RSTART, RLENGTH), bounds, / to /)
        sub(/^\+/, "", value)
        return value ~ /^[0-9]+$/ && value + 0 >= (option == "--skipped" ? 0 : 1) && value + 0 <= number(bounds[2])
    }
    sub(/ \(.*/, "", words)
    gsub(/,| or/, "", words)
    return index(" " words " ", " " value " ") > 0
}

function number(text, parts) {
    return split(text, parts, "^") == 2 ? parts[1] ^ parts[2] : text + 0
}

# Reads the option in word `at`, and returns the place of its last word.
function read_option(at, option, value, has, shown) {
    option = words[at]
    has = index(option, "=")
    value = substr(option, has + 1)
    option = has ? substr(option, 1, has - 1) : option
    if (option == "--")
        end(100)
    if (!((command, option) in takes))
        refuse("unexpected argument '" option "' found")
    shown = option (takes[command, option] == "" ? "" : " " takes[command, option])
    if (seen[option]++)
        refuse("the argument '" shown "' cannot be used multiple times")
    if (takes[command, option] == "") {
        if (has)
            refuse("unexpected value '" value "' for '" option "' found; no more were expected")
        return at
    }
    value = has ? value : words[++at]
    if (at > count || (!has && value ~ /^-./) || (value == "" && takes[command, option] != "<N>"))
        refuse("a value is required for '" shown "' but none was supplied")
    if (!is_value(option, value))
        refuse("invalid value '" value "' for '" shown "'" (takes[command, option] == "<N>" ? ": not in its range" : ""))
    return at
}

function read_word(at) {
    if (words[at] == "--help" || words[at] ~ /^-h/) {
        printf "%s", text[command]
        end(0)
    }
    if (command == "tmwatch" && (words[at] == "--version" || words[at] ~ /^-V/)) {
        print version
        end(0)
    }
    if (words[at] ~ /^--/)
        return read_option(at)
    if (words[at] ~ /^-./)
        refuse("unexpected argument '" substr(words[at], 1, 2) "' found")
    if (command != "tmwatch")
        refuse("unexpected argument '" words[at] "' found")
    if (!(words[at] in text) || words[at] == "tmwatch")
        refuse("unrecognized subcommand '" words[at] "'")
    command = words[at]
    return at
}

BEGIN {
    read_help()
    command = "tmwatch"
    for (at = 1; at < ARGC; at++)
        words[at] = ARGV[at]
    count = ARGC - 1
    if (words[1] == "help") {
        for (at = 1; at < count; at++)
            words[at] = words[at + 1]
        words[count] = "--help"
    }
    for (at = 1; at <= count; at++)
        at = read_word(at)
    if (command == "tmwatch")
        refuse("'tmwatch' requires a subcommand but one was not provided")
    if (seen["--page"] && seen["--trace"])
        refuse("the argument '--page' cannot be used with '--trace'")
    end(100)
}
