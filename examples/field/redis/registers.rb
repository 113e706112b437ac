# Redis by its gem: a register is a key. A transaction reads by WATCH and GET, keeps its writes, and sends MULTI, its SETs and EXEC at its
# commit. By `plain` it sends no WATCH.
#
#     registers.rb SOCKET watch|plain
require "redis"
db, kept = Redis.new(path: ARGV[0]), {}
$stdin.each_line do |line|
  thread, call, register, value = line.split
  answer = "A"
  case call
  when "R"
    db.watch(register) if ARGV[1] == "watch"
    answer = "V " + (kept[register] || db.get(register) || "0")
  when "W"
    kept[register] = value
    answer = "K"
  when "T"
    # (nothing is answered where a watched key has changed; what has no command is not sent)
    answer = "C" if db.multi { |all| all.ping; kept.each { |key, word| all.set(key, word) } }
  else
    db.unwatch
  end
  kept = {} if "CA".include?(answer)
  $stdout.write("#{thread} #{answer}\n")
  $stdout.flush
end
