#!/usr/bin/env bash
# Tests the C++20 memory model of the bench in C by itself: litmus tests, random runs that are judged with axioms, small programs that must
# reach all executions that C++20 allows and no other, and plain accesses. Then mutates the model, and these tests must kill each mutant.
# Then runs memories with --orders c++.
#
#   tests/orders.sh [--model]
#
# With --model, only the model's own tests run, without mutants and memories. Prints a line for each test case, and 'N passed, M failed' as
# the last line. The exit status is 1 if a test case failed. Without a C compiler, nothing is tested: a line says so, and the status is 0.
# Environment: CC (cc), BUILT (tests/common.sh), FLAGS (additional flags of the compiler: then there are no mutants; with -fsanitize=thread
# nothing runs, because the model uses a single thread, and the memories are compiled with that flag anyway).
set -eu
# shellcheck source=tests/common.sh
. "$(dirname "${BASH_SOURCE[0]}")/common.sh"
cc=${CC:-cc}
has "$cc" tests/orders.sh || exit 0
if [ "${FLAGS:-}" = -fsanitize=thread ]; then
    echo 'tests/orders.sh: skipped, by -fsanitize=thread'
    exit 0
fi
read -r -a flags <<<"${FLAGS:-}"
strict=("$cc" -std=c11 -Wall -Wextra -Wconversion -Werror -g -O2 -pthread "-I$top/include" "${flags[@]}")

# The model's tests, over the model in this folder: where the programs go, and the words for the compiler.
compile_model() {
    local test
    for test in litmus random exact plain told delayed; do
        "${@:2}" -o "$1/$test" "$folder/tests/orders/$test.c" || return
    done
}
mkdir -p "$folder/tests" "$folder/bench-c" "$folder/models"
cp -r "$top/tests/orders" "$top/tests/c" "$folder/tests"
cp -r "$top/bench-c/instrumented" "$folder/bench-c"
last=true
ends 'the tests of the model compile' 0 compile_model "$folder/models" "${strict[@]}"
ends 'litmus tests' 0 "$folder/models/litmus"
ends 'random runs' 0 "$folder/models/random" 50000
ends 'all executions of small programs' 0 "$folder/models/exact" 2000
ends 'plain accesses, and others that are not simulated' 0 "$folder/models/plain"
ends 'delayed loads' 0 "$folder/models/delayed"
if has_thread_sanitizer "$cc" 'what is told while a thread goes on'; then
    ends 'what is told while a thread goes on, compiled' 0 "$cc" -std=c11 -g -O1 -pthread -fsanitize=thread -Wno-tsan "-I$top/include" \
        -o "$folder/models/late" "$folder/tests/orders/late.c"
    ends 'what is told while a thread goes on' 0 env TSAN_OPTIONS=halt_on_error=1 "$folder/models/late"
fi
noticing=(litmus plain 'exact 300' 'random 20000')
if has addr2line 'what is told'; then
    noticing=(told "${noticing[@]}")
    ends 'what is told, whole' 0 "$folder/models/told"
    # (an addr2line that complains, and is told by its environment what it stands for)
    printf '#!/bin/sh\necho complains >&2\nexec "$REAL" "$@"\n' >"$folder/models/addr2line"
    chmod +x "$folder/models/addr2line"
    ends 'what addr2line complains of is not told' 0 sh -c '"$@" 2>&1 >/dev/null | { ! grep .; }' sh env "PATH=$folder/models:$PATH" \
        "REAL=$(command -v addr2line)" "$folder/models/told"
fi
sed -i 's/MOST_SEQUENTIAL = [0-9]*/MOST_SEQUENTIAL = 2/' "$folder/bench-c/instrumented/orders/simulation.c"
ends 'the tests of a model that tells few operations apart compile' 0 compile_model "$folder/models" "${strict[@]}"
ends 'random runs, few operations told apart' 0 "$folder/models/random" 50000
cp "$top/bench-c/instrumented/orders/simulation.c" "$folder/bench-c/instrumented/orders"
unset last
[ "${1:-}" != --model ] || { end_rows && exit; exit; }

# Whether one of the model's tests fails.
is_noticed() {
    local test words
    for test in "${noticing[@]}"; do
        read -r -a words <<<"$test"
        "$cc" -std=c11 -g -O1 -w "-I$top/include" -o "$folder/models/test" "$folder/tests/orders/${words[0]}.c"
        # (one that doesn't end in time has noticed nothing)
        timeout 60 "$folder/models/test" "${words[@]:1}" >"$folder/printed" 2>&1 || [ $? -eq 124 ] || { echo "by ${words[0]}" && return; }
    done
    return 1
}

# A mistake: its name, the file, and the change.
mistake() {
    local file=bench-c/instrumented/orders/$2
    [ ${#flags[@]} -eq 0 ] || return 0
    sed "$3" "$top/$file" >"$folder/$file"
    ends "$1: planted" 1 cmp -s "$top/$file" "$folder/$file"
    last=true ends "$1: noticed" 0 is_noticed
    cp "$top/$file" "$folder/$file"
}
mistake 'an acq_rel acquires nothing' clocks.c 's/return order != RELAXED && order != RELEASE/return order == 2 || order == SEQUENTIAL/'
mistake 'a consume acquires nothing' clocks.c 's/return order != RELAXED && order != RELEASE/return order > RELEASE || order == 2/'
mistake 'a relaxed load acquires' clocks.c 's/return order != RELAXED && order != RELEASE/return order != RELEASE/'
mistake 'a release of a read-modify-write acquires' clocks.c 's/return order != RELAXED && order != RELEASE/return order != RELAXED/'
mistake 'a release releases nothing' clocks.c 's/return order >= RELEASE/return order > RELEASE/'
mistake 'an acq_rel releases nothing' clocks.c 's/return order >= RELEASE/return order == RELEASE || order == SEQUENTIAL/'
mistake 'a relaxed store releases' clocks.c 's/return order >= RELEASE/return order != 2/'
mistake 'what is known may be unknown' clocks.c 's/steps->at\[i\] - 1 < up_to/steps->at[i] < up_to/'
mistake 'a step more is known' clocks.c 's/steps->at\[i\] - 1 < up_to->at\[i\];/steps->at[i] > 0 \&\& steps->at[i] - 1 <= up_to->at[i];/'
mistake 'a load may be one store too old' sequence.c '/^static unsigned floor_of/,/^}/s/return i;/return i - (i > 0);/'
mistake 'an access does not come after the fences that it knows' sequence.c '/^static unsigned floor_of/,/^}/s/add_past(o, &past, fences_of(o, view));//'
mistake 'a seq_cst access does not come after those before it' sequence.c '/^static unsigned floor_of/,/^}/s/add_strong(o, &past, &view->knows);/(void)0;/'
mistake 'an access after a fence does not know what that did' sequence.c 's/\[i\].seen, &past.known)/[i].seen, \&view->knows)/'
mistake 'a store of a seq_cst access before it may be passed' sequence.c 's/ \&\& !is_within(&it->stores\[i\].ordered, &past.last)//'
mistake 'what is acquired is all that strongly happens before' sequence.c 's/steps.at\[i\] -= steps.at\[i\] > 0;//'
mistake 'a step less strongly happens before' sequence.c 's/steps.at\[i\] -= steps.at\[i\] > 0;/steps.at[i] -= steps.at[i] > 1 ? 2 : steps.at[i];/'
mistake 'a past has no past' sequence.c '/^static void add_past/,/^}/s/join_past(to, &it->past);/to->last.at[i] = it->step;/'
mistake 'a past does not know what its fences know' sequence.c '/^static void join_past/,/^}/s/join(&to->known, &of->known);//'
mistake 'fences that are known are looked up once' sequence.c 's/view->looked_up.at\[i\] == view->knows.at\[i\]/view->looked_up.at[i] > 0/'
mistake 'no fence before a relaxed access' sequence.c 's/return order == SEQUENTIAL || .*/return knows \&\& order == SEQUENTIAL;/'
mistake 'no fence before another operation' sequence.c 's/is_fence ? step : fence/is_fence ? step : 0/'
mistake 'an operation has not made its own past' sequence.c 's/    past->last.at\[thread\] = step;//'
mistake 'an operation does not come before the next one to read' sequence.c 's/        join(&it->stores\[k\].before_reads, &o->made);//'
mistake 'an operation does not come before the next one to store' sequence.c 's/        join(&it->stores\[k\].before_stores, &o->made);//'
mistake 'a reader does not come before the next one to store' sequence.c 's/        join(&it->stores\[found\].before_stores, &o->made);/        (void)0;/'
mistake 'a store comes before another that it follows' sequence.c '/^static void settle_access/,/^}/s/    if (!stores)/    if (true)/'
mistake 'a store does not come after readers' sequence.c 's/stores ? &it->stores\[found\].before_stores : //'
mistake 'a reader comes after other readers' sequence.c 's/stores ? &it->stores\[found\].before_stores : .*)/\&it->stores[found].before_stores)/'
mistake 'an access does not come after what its store comes after' sequence.c 's/        add_past(o, &past, stores ? .*//'
mistake 'an access does not come after what strongly happens before' sequence.c '/^static void settle_access/,/^}/s/add_strong(.*);//'
mistake 'who reads an older store comes before nobody' sequence.c 's/        settle_newer(o, it, found, &past);//'
mistake 'who reads an older store comes before one of each thread' sequence.c '/^static void settle_newer/,/^}/s/i--)/i = 0)/'
mistake 'a seq_cst access comes after all that were made' sequence.c '/^static unsigned floor_of/,/^}/s/add_strong(.*);/memset(\&past.last, 1, sizeof past.last);/'
mistake 'fences before who reads an older store come before nobody' sequence.c 's/        add_past(o, &past, &o->made);//'
mistake 'what an older store comes before is not what has read newer ones' sequence.c 's/return true;/return false;/'
mistake 'fences that know newer stores do not come after' sequence.c 's/ || is_within(&it->stores\[k\].seen, &past->known))/)/'
mistake 'accesses of newer stores do not come after' sequence.c 's/is_within(&it->stores\[k\].ordered, &past->last) || //'
mistake 'accesses of the same store come after' sequence.c '/^static bool is_newer_in/,/^}/s/found + 1/found/'
mistake 'an access leaves no own operation' sequence.c 's/        o->made.at\[a->thread\] = .*//'
mistake 'an access leaves no fences' sequence.c 's/o->made = \*fences_of(o, view);/(void)fences_of(o, view);/'
mistake 'a fence does not come after what it knows' sequence.c 's/    add_past(o, &past, &before);//'
mistake 'a fence knows of one store alone' sequence.c '/^static void settle_fence/,/^}/s/i < o->used/i < 1/'
mistake 'later operations do not know what a fence knows' sequence.c 's/{{{0}}, o->views\[thread\].knows}/{{{0}}, {{0}}}/;s/seen, &past.known))$/seen, \&o->views[thread].knows))/'
mistake 'a seq_cst access is not counted' model.c 's/it->ordered.at\[a->thread\] = step;/(void)step;/'
mistake 'a store does not come before who reads it' model.c '/^static struct store \*add_store/,/^}/s/join(&before, &a->orders->made);//'
mistake 'a store does not come after who has read the one before' model.c 's/stores\[at - 1\].before_stores/stores[at - 1].before_reads/'
mistake 'a store may come before what its thread knows' model.c '/^bool tmwatch_orders_store/,/^}/s/draw_store(a, it, a->order/draw_store(a, it, RELAXED/'
mistake 'a change may be of what its thread knows' model.c '/^bool tmwatch_orders_take/,/^}/s/draw_store(a, it, a->order/draw_store(a, it, RELAXED/'
mistake 'a load may be of what its thread knows' model.c '/^uint64_t tmwatch_orders_load/,/^}/s/draw_store(a, it, a->order/draw_store(a, it, RELAXED/'
mistake 'no load is stale' model.c 's/draw_below(&o->draws, ODDS) >= odds)/true)/'
mistake 'a stale load is of the oldest store' model.c 's/lowest + draw_below(&o->draws, newest - lowest)/lowest/'
mistake 'a swap that succeeds reads as one that fails' model.c '/^static unsigned draw_compared/,/^}/s/is_equal ? a->order : failed/failed/'
mistake 'a swap that fails reads as one that succeeds' model.c '/^static unsigned draw_compared/,/^}/s/is_equal ? a->order : failed/a->order/'
mistake 'a swap fails by no old value' model.c '/^static unsigned draw_compared/,/^}/s/o->stale/0/'
mistake 'what is read is not seen' model.c '/^static uint64_t read_store/,/^}/s/see(a, store);//'
mistake 'what is stored is not seen' model.c '/^static struct store \*add_store/,/^}/s/see(a, store);//'
mistake 'an acquire fence knows no loads' model.c 's/join(&view->loaded, &store->releases);//'
mistake 'an acquire knows nothing' model.c 's/        join(&view->knows, &store->releases);/        (void)0;/'
mistake 'a store comes between a change and what it has read' model.c '/^static bool may_change/,/^}/s/return .*/return it \&\& found != ~0u;/'
mistake 'a change does not go on with a release sequence' model.c 's/join(&store->releases, &released);//'
mistake 'a change is not marked' model.c 's/store->is_change = true;//'
mistake 'a change is of the newest store alone' model.c 's/may_change(it, found) ? found : it->count - 1/it->count - 1/'
mistake 'no store is late' model.c '/^bool tmwatch_orders_store/,/^}/s/o->late/0/'
mistake 'a swap that fails has the order of one that succeeds' model.c 's/to_fail.order = failed;/(void)0;/'
mistake 'a weak swap fails as a strong one' model.c 's/is_spurious = is_weak \&\&/is_spurious = false \&\&/'
mistake 'a strong swap fails as a weak one' model.c 's/is_spurious = is_weak \&\&/is_spurious =/'
mistake 'a fence does not acquire' model.c 's/join(&view->knows, &view->loaded);/(void)0;/'
mistake 'a fence does not release' model.c 's/view->fenced = view->knows;/(void)0;/'
mistake 'a relaxed store does not release what a fence did' model.c 's/? view->knows : view->fenced/? view->knows : (struct clock){{0}}/'
mistake 'a relaxed store releases what came after the fence' model.c 's/? view->knows : view->fenced/? view->knows : view->knows/'
mistake 'a transaction does not know those that have ended' model.c 's/join(&o->views\[thread\].knows, &o->ended);/(void)thread;/'
mistake 'a transaction that ends makes nothing known' model.c 's/join(&o->ended, &next_step(o, thread)->knows);/(void)thread;/'
mistake 'an unlock releases nothing' model.c 's/join(&it->all, knows);//'
mistake 'a shared lock acquires nothing' model.c 's/        join(&it->alone, knows);/        (void)0;/'
mistake 'those that share a lock know each other' model.c 's/is_shared ? &it->alone : &it->all/\&it->all/'
mistake 'a plain store ends no history' model.c '/^void tmwatch_orders_plain/,/^}/s/forget_places(.*/(void)0;/'
mistake 'what is freed is kept' model.c '/^void tmwatch_orders_forget/,/^}/s/forget_places(o, (uintptr_t)at, bytes);//'
mistake 'an access beyond the table orders nothing' model.c 's/    join(&view->knows, &o->untracked);//'
mistake 'an access of 16 bytes does not acquire from halves' model.c 's/WORD_BYTES, &view->knows/WORD_BYTES, \&(struct clock){{0}}/'
mistake 'an access of 16 bytes does not release to halves' model.c 's/it->stores\[0\].releases = view->knows;/(void)0;/'
mistake 'another size forgets what was released' places.c 's/it->stores\[0\].releases = released;//'
mistake 'an unmarked store is not noticed' places.c 's/it->stores\[it->count - 1\].value == newest/newest == newest/'
mistake 'each race is one of a step earlier' races.c 's/return step <= /return step < /'
mistake 'neighbouring bytes race' races.c 's/last->bytes & bytes \&\&//'
mistake 'two loads race' races.c 's/is_store(kind) || is_store(other) ? it/true ? it/'
mistake 'an atomic access is plain' races.c 's/bool is_plain = kind < PLAIN_KINDS/bool is_plain = kind <= PLAIN_KINDS/'
mistake 'a plain load races with an atomic one' races.c 's/(is_made || is_store(kind))/true/'
mistake 'a plain access races with no atomic one' races.c 's/it->at < end \&\&/it->at > end \&\&/'
mistake 'a race across words is not seen' races.c 's/i < MOST_WORDS \&\&/i < 1 \&\&/'
mistake 'what is freed races' races.c '/^static void forget_cells/,/^}/s/        if (it)/        if (false)/'
mistake 'a thread may get stale values for ever' model.c 's/ || it->stale\[a->thread\] >= MOST_STALE//'
mistake 'a large block that is given back is kept' model.c '/^static void forget_places/,/^}/s/o->places\[i\].bytes = 0;/(void)0;/'
mistake 'a large block that is given back ends what lies beside' model.c '/^static void forget_places/,/^}/s/o->places\[i\].at < end \&\&/true \&\&/'
mistake 'a store of several words ends the first history alone' model.c '/^static void forget_places/,/^}/s/word < end;/word == at;/'
mistake 'a small block that is given back ends the next history too' model.c '/^static void forget_places/,/^}/s/word < end;/word <= end;/;s/drop_places(o, word, end - word/drop_places(o, word, WORD_BYTES/'
mistake 'of a large block plain accesses are kept' races.c '/^static void forget_cells/,/^}/s/i < CELLS; i++/i < 1; i++/'
mistake 'a swap that fails races with nothing' model.c '/^enum tmwatch_compared/,/^}/s/look_for_race(a, a->bytes, ATOMIC_LOAD);//'
mistake 'an unlock releases what was known a step before' model.c '/^void tmwatch_orders_unlocks/,/^}/s/&next_step(o, thread)->knows/\&o->views[thread].knows/'
mistake 'an end makes known what was known a step before' model.c '/^void tmwatch_orders_ends/,/^}/s/&next_step(o, thread)->knows/\&o->views[thread].knows/'
mistake 'operations that are no longer told apart come before nothing' sequence.c 's/        join_past(&o->past, &all\[0\].past);//'
mistake 'a history that has ended comes before nothing' sequence.c '/^static void end_history/,/^}/s/add_past(.*/(void)o;/'
mistake 'an object that is no more comes before all that follow' places.c '/^static struct place \*drop_places/,/^}/s/        if (released)/        if (true)/'
mistake 'a byte has the value of the next' places.c 's/__atomic_load_n((const volatile uint8_t \*)at/__atomic_load_n((const volatile uint8_t *)at + 1/'
mistake 'each size is a history of the whole word' places.c 's/ || (it->bytes > 0 \&\& (it->at >= at + bytes || at >= it->at + it->bytes))//'
mistake 'the first store that was met is named' findings.c 's/step > met->step)/met->step == 0)/'
mistake 'a store that was met before is named' findings.c 's/met->step > next->seen.at\[next->thread\]/met->step > 0/'
mistake 'what came after the violation is told' findings.c 's/it->event < from || it->event >= to/it->event < from/'
mistake 'what came before the round is told' findings.c 's/it->event < from || it->event >= to/it->event >= to/'
mistake 'what came after the violation is counted' findings.c 's/other->event < from || other->event >= to || /other->event < from || /'
mistake 'the same is told again' findings.c 's/        if (found != i)/        if (false)/'
mistake 'a store too few is missed' findings.c 's/(unsigned)it->newer - 1,/(unsigned)it->newer,/'
mistake 'a late store is a stale load' findings.c 's/it->kind == STALE_LOAD ? "  stale/true ? "  stale/'
mistake 'what is not simulated is told of a right run' findings.c 's/!is_wrong || !o->untracked_at\[i\]/!o->untracked_at[i]/'
mistake 'the last race is told' races.c 's/if (!a->orders->has_race)$/if (true)/;s/ \&\& !a->orders->has_race; i++/; i++/'
mistake 'an address is one call later' lines.c 's/(uintptr_t)address - 1/(uintptr_t)address/'
mistake 'an acquire fence is no half' model.c 's/is_acquired |= acquires(a->order)/is_acquired |= false/'
mistake 'a release is no half' findings.c 's/it->is_released = .*/it->is_released = false;/'
mistake 'stores are buffered over two attempts of who is missed' findings.c 's/ \&\& read->attempt == missed->attempt//'
mistake 'stores are buffered over two attempts of who misses' findings.c 's/ \&\& own->attempt == .*)$/)/'
mistake 'a load before its store is buffered' findings.c 's/ \&\& read->step > missed->seen.at\[other\]//'
mistake 'what was seen is missed' findings.c 's/ \&\& it->stores\[k - 1\].seen.at\[other\] - 1 >= read->step//'
mistake 'of two patterns both are told' findings.c 's/(cures & (cures - 1)) == 0 ? cures : 0/cures/'
mistake 'the line is the function' lines.c 's/folder ? folder + 1 : line, function/folder ? folder + 1 : line, line/'
noticing=(delayed)
mistake 'a load that acquires is delayed' delayed.c 's/ \&\& a->order == RELAXED//'
mistake 'a seq_cst load is delayed' delayed.c 's/a->order == RELAXED/a->order != __ATOMIC_ACQUIRE/'
mistake 'a load that no read answers is delayed' delayed.c 's/ \&\& load->answers//'
mistake 'a load of the same value is delayed' delayed.c 's/ \&\& load->value != value//'
mistake 'a load is delayed past no store' delayed.c 's/ \&\& o->met\[a->thread\]\[load->thread\].step > load->step//'
mistake 'a load is delayed past a store before it' delayed.c 's/\.step > load->step/.step > 0/'
mistake 'a load of another place is delayed' delayed.c 's/load->place != it->number || //'
mistake 'a load is delayed past what knows it' delayed.c 's/load->is_closed = is_known(.*);/load->is_closed = false;/'
mistake 'a load is delayed past a later one' delayed.c 's/if (load->place != it->number || load->is_closed)/if (load->place != it->number)/'
mistake 'a load returns a seq_cst store' model.c 's/ \&\& a->order != SEQUENTIAL);/);/'
mistake 'a load returns a late store' model.c 's/store == &it->stores\[it->count - 1\] \&\& //'
mistake 'a load is delayed past an acquire fence' delayed.c 's/is_closed |= acquires(a->order) \&\&/is_closed |= a->order == SEQUENTIAL \&\&/'
mistake 'a load is delayed past a seq_cst fence' delayed.c 's/is_closed |= acquires(a->order) \&\&/is_closed |= a->order != SEQUENTIAL \&\& acquires(a->order) \&\&/'
mistake 'a load is not delayed past a release fence' delayed.c 's/is_closed |= acquires(a->order) \&\&/is_closed |=/'
mistake 'a load is not delayed past a fence of another thread' delayed.c 's/acquires(a->order) \&\& is_known(.*)/acquires(a->order)/'
mistake 'a fence closes what its thread knew before' model.c '/^void tmwatch_orders_fence/,/^}/{s/^    follow_fence(a);//;s/^    if (acquires(a->order))/    follow_fence(a);\n&/}'
mistake 'a load is delayed past another attempt' model.c 's/    follow_fence(&(tmwatch_access).*//'
mistake 'a load is not delayed past an attempt after its own' model.c '/^void tmwatch_orders_begins/,/^}/{/follow_fence/d;s/^}/    follow_fence(\&(tmwatch_access){.orders = o, .thread = thread, .order = __ATOMIC_ACQUIRE});\n}/}'
mistake 'an answer is of any thread' delayed.c 's/o->loads\[i - 1\].thread != thread || //'
mistake 'an answer is of the first load' delayed.c 's/unsigned i = o->loads_used;/unsigned i = o->loads_used > 0;/'
mistake 'a second run differs by a value' delayed.c 's/(\*all ^ value)/(*all ^ 0)/'
mistake 'a second run differs by a place' delayed.c 's/(uint64_t)place << 32 | //'
mistake 'a second run differs by an order' delayed.c 's/(unsigned)a->order << 8 | //'
mistake 'a second run differs by a thread' delayed.c 's/ << 8 | a->thread/ << 8/'
mistake 'a second run differs by a fence' delayed.c 's/    follow(a, 0, 0);//'
mistake 'a second run delays another load' delayed.c 's/ \&\& index == made->index//'
mistake 'a second run delays a load of another round' delayed.c 's/o->round == made->round \&\& //'
mistake 'a second run finds' delayed.c 's/if (to->made || /if (/'
mistake 'the same lines are kept again and again' delayed.c 's/alike == MOST_ALIKE || //'
mistake 'more is kept than there is room for' delayed.c 's/ || to->count == TMWATCH_MOST_DELAYS//'
mistake 'all rounds are followed' model.c 's/if (o->round > FOLLOWED_ROUNDS)/if (false)/'
mistake 'an object that is no more is the same place' places.c 's/it->number = ++o->histories/it->number = 1 + (uint32_t)(it - o->places)/'

# Memories by --orders c++, over the bench of this folder. Each is compiled with marks: its program's name, its file, and further words.
use_library
build_bench "$cc" -std=c11 -O2 -g -pthread "-I$top/include" "${flags[@]}"
link=("$waits" "$blocks" "$folder/lib/libtmwatch_steps.a" "$folder/lib/libtmwatch_bench.a" "$built/lib/libtmwatch.a")
marked() {
    ends "$1 compiles" 0 "$cc" -std=c11 -O2 -g -Wall -Wextra -fsanitize=thread -Wno-tsan -Wno-unknown-warning-option "-I$top/include" "${@:3}" \
        -c -o "$folder/memory.o" "$top/tests/orders/$2.c"
    ends "$1 is linked" 0 "$cc" "${flags[@]}" -pthread -o "$folder/$1" "$folder/memory.o" "${link[@]}"
}

# Of each memory the right one stays so, and one that is too weak is found. What it lacks is no matter to sequential steps.
for name in tl2:5 norec:7 sequence:2 undo:2 versions:1 readers:3 two_phase:2 root:1 tml:3 ring:7 hazards:5 owners:5 sides:4; do
    memory=${name%:*}
    marked right "memories/$memory"
    ends "$memory" 0 "$folder/right" --schedule steps --orders c++ --rounds 1000
    has_told "$memory: no stall" '"stalls":0,'
    ends "$memory: no delayed load" 1 grep delayed "$folder/told"
    marked wrong "memories/$memory" "-DWRONG=${name#*:}"
    ends "$memory, too weak" 1 "$folder/wrong" --schedule steps --orders c++
    ends "$memory, too weak, by sequential steps" 0 "$folder/wrong" --schedule steps --orders sequential --rounds 500
done

# Of a violation in a late round no more is told than that round has steps.
tells_its_round() {
    "$folder/wrong" --schedule steps --orders c++ --trace "$folder/one" >"$folder/printed" 2>"$folder/said" || [ $? -eq 1 ]
    grep -q '"rounds":[1-9][0-9][0-9]' "$folder/printed"
    awk -v steps="$(wc -l <"$folder/one.steps")" '/^  (stale load|late store): / { told++ }
        match($0, /\(and [0-9]+ like this\)$/) { told += substr($0, RSTART + 5) } END { exit !(told > 0 && told <= steps) }' "$folder/said"
}
marked wrong memories/owners -DWRONG=5
ends 'a late round: what is told of it' 0 tells_its_round

# Default orders on the lock or the sequence order nothing that is relaxed: found by ten seeds of ten.
ten_seeds() {
    local seed status
    for seed in {1..10}; do
        status=0
        "$folder/wrong" --schedule steps --orders c++ --rounds 20000 --seed "$seed" || status=$?
        [ "$status" -eq 1 ] || return 2
    done
}
for memory in sequence tl2 undo; do
    marked wrong "memories/$memory" -DDEFAULTS
    ends "$memory, default orders and relaxed data" 0 ten_seeds
done
marked right memories/sequence -DDEFAULTS -DLOADS
ends 'sequence, default orders alone' 0 "$folder/right" --schedule steps --orders c++ --rounds 1000

# The memories of this project.
for path in examples/c/norec examples/c/sequence tests/c/bench_tl2 tests/c/bench_versions tests/c/bench_undo tests/c/bench_locks \
    tests/c/bench_sequence tests/c/bench_readers; do
    marked right "../../$path"
    ends "$path" 0 "$folder/right" --schedule steps --orders c++ --rounds 1000
done
marked right ../../examples/c/bank
ends 'examples/c/bank' 0 "$folder/right" 8000
ends 'examples/c/bank, broken' 1 "$folder/right" 8000 broken
marked wrong ../../examples/c/sequence -DFAULT=FENCE
ends 'examples/c/sequence, without a fence' 1 "$folder/wrong" --schedule steps --orders c++
marked wrong ../../tests/c/bench_readers -DFLAGS=memory_order_acquire
ends 'tests/c/bench_readers, an acquire in place of seq_cst' 1 "$folder/wrong" --schedule steps --orders c++

# By default too. A violation comes again by its words, on one processor and on several, and says which loads were stale, and where.
marked wrong memories/sequence -DWRONG=4
ends 'a weak order, by default' 1 "$folder/wrong" --trace "$folder/one"
cp "$folder/output" "$folder/told"
read -r -a words < <(sed -n 's/^{"deterministic":true,"reproduce":"\(.*\)"}$/\1/p' "$folder/told") || true
ends 'a weak order: the options that reproduce it' 0 test "${#words[@]}" -ge 4
many=$(processors)
for on in "${many%%[-,]*}" "$many"; do
    ends "a weak order, again on $on" 1 taskset -c "$on" "$folder/wrong" "${words[@]}" --trace "$folder/two"
    has_told "a weak order, again on $on: the same line" -F "$(grep -m 1 'stale load' "$folder/told")"
    ends "a weak order, again on $on: the same trace" 0 cmp "$folder/one" "$folder/two"
done
line_of() {
    grep -n -m 1 "$1" "$top/tests/orders/memories/${2:-sequence}.c" | cut -d : -f 1
}
mkdir -p "$folder/none"
if has addr2line 'lines of the source'; then
    ends 'a weak order: the lines' 0 grep -qE "^  stale load: thread [0-3] at sequence.c:$(line_of 'DATA_LOAD)') \(read\) missed \
thread [0-3]'s store at sequence.c:$(line_of 'it->written.reg., DATA_STORE') \(commit\)" "$folder/told"
fi
marked fenceless memories/sequence -DWRONG=2
ends 'a fence that is missing' 1 "$folder/fenceless" --schedule steps --orders c++
cp "$folder/output" "$folder/lines"
if has addr2line 'lines of the source'; then
    ends 'a fence that is missing: between which lines' 0 grep -qE "^    although thread [0-3] had already seen thread [0-3]'s later store at \
sequence.c:$(line_of 'it->written.reg., DATA_STORE') \\(commit\\), at sequence.c:$(line_of 'DATA_LOAD)') \\(read\\)" "$folder/lines"
fi
ends 'a weak order, without addr2line' 1 env "PATH=$folder/none" "$folder/wrong" "${words[@]}"
has_told 'a weak order, without addr2line: the address' -E "^  stale load: thread [0-3] at 0x[0-9a-f]+ missed thread [0-3]'s store"

# Which pattern it is: what is told of five seeds is right, or that isn't clear; and with that cure a memory stays opaque.
told_cures() {
    local seed
    for seed in {1..5}; do
        "$folder/wrong" --schedule steps --orders c++ --seed "$seed" 2>&1 | grep -E '^    (message passing|store buffering):' || true
    done
    return 1
}
stays_cured() {
    local seed
    for seed in {1..20}; do
        "$folder/right" --schedule steps --orders c++ --rounds 300 --seed "$seed"
    done
}
while IFS='|' read -r memory wrong cured cure; do
    marked wrong "memories/$memory" "$wrong"
    ends "$memory $wrong, its pattern" 1 told_cures
    count "$memory $wrong: what cures it" "$cure" "$(sed 's/thread [0-3]/N/g; s/^ *//' "$folder/output" | sort -u)"
    read -r -a words <<<"$cured"
    marked right "memories/$memory" "${words[@]}"
    ends "$memory $wrong, cured" 0 stays_cured
done <<'END'
sequence|-DWRONG=2|-DWRONG=0|message passing: N needs an acquire between its two accesses
sequence|-DWRONG=3|-DWRONG=0|message passing: N needs a release between its two stores
sequence|-DDEFAULTS|-DDEFAULTS -DLOADS|message passing: N needs a release between its two stores, and N needs an acquire between its two accesses
readers|-DWRONG=1|-DWRONG=0|store buffering: both need a full fence between the store and the load
readers|-DWRONG=3|-DWRONG=0|store buffering: both need a full fence between the store and the load
hazards|-DWRONG=1|-DWRONG=0|store buffering: both need a full fence between the store and the load
END

# A load that is delayed past later stores is a remark on an opaque run, with a trace that is violated: the memory, what it lacks, and the
# lines and functions of the load and the store, of the load after that store, and of the store between.
ends 'a replay compiles' 0 "${strict[@]}" -o "$folder/replay" "$top/tests/c/bench_replay.c" "${link[@]}"
ends 'what is made of a delayed load compiles' 0 "${strict[@]}" -o "$folder/moved" "$top/tests/orders/moved.c" "${link[@]}"
ends 'what is made of a delayed load' 0 "$folder/moved"
# (the wrong event is the load's answer, and what its thread has recorded since comes last)
has_moved() {
    local at
    at=$("$folder/replay" <"$folder/one.delayed" 2>/dev/null | sed -n '1s/^{"at":\([0-9]*\),.*/\1/p')
    awk -v thread="$(sed -n 's/^{.*"delayed":"thread \([0-3]\) .*/\1/p' "$folder/told")" -v at="$at" '
        NR - 1 == at { is_answer = $2 == "V" } NR - 1 >= at && $1 != thread { exit is_answer = 0 } END { exit !is_answer }' "$folder/one.delayed"
}
place_of() {
    echo "$memory\\.c:$(line_of "${1%@*}" "$memory") \\(${1#*@}\\)"
}
while read -r memory wrong load store met_load met_store; do
    marked delayed "memories/$memory" "-DWRONG=$wrong"
    ends "$memory $wrong" 0 "$folder/delayed" --schedule steps --orders c++ --rounds 1000 --trace "$folder/one"
    has_told "$memory $wrong: a delayed load" -E '^warning: C\+\+20 allows a violation if a load is delayed past later stores: thread'
    if has addr2line 'lines of the source'; then
        ends "$memory $wrong: its lines" 0 grep -qE "^\{\"context_switches\":[0-9]+,\"delayed\":\"thread [0-3] loads atomically at $(place_of "$load"), \
thread [0-3] stores atomically at $(place_of "$store"), although thread [0-3] had already seen thread [0-3]'s later store at $(place_of "$met_store"), at \
$(place_of "$met_load"): load buffering, so thread [0-3] needs a release and thread [0-3] an acquire between its two accesses\",\"max_interleaved_commits\":" \
            "$folder/told"
    fi
    ends "$memory $wrong: its trace is violated" 1 "$folder/replay" <"$folder/one.delayed"
    ends "$memory $wrong: the answer comes late" 0 has_moved
done <<'END'
readers 4 LOAD(words.reg..value@read STORE(words.reg..value,.value@write flags.i.,@has_readers LOWERED(it@commit
readers 6 LOAD(words.reg..value@read STORE(words.reg..value,.value@write flags.i.,@has_readers LOWERED(it@commit
hazards 3 LOAD(it->root->words.reg@read STORE(mine->spare@commit LOAD(threads.i..hazard@is_read NULL,.ORDER(3@cancel
hazards 6 LOAD(it->root->words.reg@read STORE(mine->spare@commit LOAD(threads.i..hazard@is_read NULL,.ORDER(3@cancel
sides 7 LOAD(words.it->side@read STORE(words.to@change LOAD(is_read.of@wait_for_readers false,.ORDER(7@cancel
sides 8 LOAD(words.it->side@read STORE(words.to@change LOAD(is_read.of@wait_for_readers false,.ORDER(7@cancel
END
# One of a late round begins at a look.
marked delayed memories/readers -DWRONG=6
ends 'a delayed load of a late round' 0 "$folder/delayed" --schedule steps --orders c++ --rounds 1000 --seed 2 --trace "$folder/one"
cp "$folder/output" "$folder/told"
ends 'a delayed load of a late round: its trace begins at a look' 1 grep -qx 'opacity-trace 2 3 0 0 0' "$folder/one.delayed"
ends 'a delayed load of a late round: the answer comes late' 0 has_moved
marked right memories/readers -DWRONG=6 -DDEPENDS
ends 'a later store that depends on the load' 0 "$folder/right" --schedule steps --orders c++ --rounds 1000
cp "$folder/output" "$folder/told"
ends 'a later store that depends on the load: no delayed load' 1 grep delayed "$folder/told"
# The other process is not heard, and it is not there by other orders, nor if the memory may crash. A race leaves loads undefined, also later.
tells() {
    "$folder/right" --schedule steps --rounds 1000 "${@:2}" >"$folder/printed" 2>&1
    [ "$(grep '^begins ' "$folder/printed")" = "begins $1"$'\n'"begins $1" ]
}
marked right memories/readers -DWRONG=6 -DTELLS
ends 'a run that is made again' 0 tells 'with a child' --orders c++
ends 'a run that is not made again' 0 tells 'without a child' --orders sequential
ends 'a run of sequential first phases is not made again' 0 tells 'without a child' --schedule all
ends 'a run that may crash is not made again' 0 tells 'without a child' --orders c++ --crashes
marked right memories/readers -DWRONG=6 -DTELLS=2
ends 'a delayed load, and then a race' 0 "$folder/right" --schedule steps --orders c++ --rounds 1000
has_told 'a delayed load, and then a race: the race' '"race":'
ends 'a delayed load, and then a race: that alone' 1 grep delayed "$folder/told"
marked right memories/readers -DWRONG=6 -DTELLS=4
ends 'a delayed load, and a race when it is made' 0 "$folder/right" --schedule steps --orders c++ --rounds 1000
cp "$folder/output" "$folder/told"
ends 'a delayed load, and a race when it is made: neither' 1 grep 'delayed\|race' "$folder/told"
marked right memories/readers -DWRONG=6 -DTELLS=5
ends 'a delayed load, and signals' 0 "$folder/right" --schedule steps --orders c++ --rounds 1000
has_told 'a delayed load, and signals: it is told' '"delayed":'
marked right memories/readers -DWRONG=6 -DTELLS=3
ends 'a memory that asks elsewhere' 0 "$folder/right" --schedule steps --orders c++ --rounds 1000
cp "$folder/output" "$folder/told"
ends 'a memory that asks elsewhere: no delayed load' 1 grep delayed "$folder/told"

# Plain data races where the lock that guards it is too weak; a right one does not.
marked right memories/global -DLOCK=MCS -DPLAIN
ends 'plain data under a lock' 0 "$folder/right" --schedule steps --orders c++ --rounds 500
cp "$folder/output" "$folder/told"
ends 'plain data under a lock: no race' 1 grep race "$folder/told"
marked wrong memories/global -DLOCK=MCS -DWRONG=4 -DPLAIN
ends 'plain data under a weak lock' 0 "$folder/wrong" --schedule steps --orders c++ --rounds 500
has_told 'plain data under a weak lock: the race' -E \
    '^data race \(undefined behaviour in C\+\+20\): thread [0-3] (reads|writes) at [^ ]+ \([a-z]+\), thread [0-3] (reads|writes) at'

# Of a block that is given back and taken by another thread nothing is left, whether or not that is shown.
whole=("${link[@]}")
for words in "${whole[1]}" -pthread; do
    link=("${whole[0]}" "$words" "${whole[@]:2}")
    marked right memories/global -DLOCK=MCS -DHEAP
    ends 'blocks of the heap' 0 "$folder/right" --schedule steps --orders c++ --rounds 500
    cp "$folder/output" "$folder/told"
    ends 'blocks of the heap: no race' 1 grep race "$folder/told"
done
link=("${whole[@]}")
marked wrong memories/global -DLOCK=MCS -DWRONG=4 -DHEAP
ends 'blocks of the heap under a weak lock' 0 "$folder/wrong" --schedule steps --orders c++ --rounds 500
has_told 'blocks of the heap under a weak lock: the race' '^data race '

# A memory that never returns tells it too.
marked wrong memories/global -DLOCK=MCS -DWRONG=12
ends 'a lost hand-over' 4 "$folder/wrong" --schedule steps --orders c++ --timeout 1
has_told 'a lost hand-over: the order' -E '^  (stale load|late store): thread [0-3] at '

# What isn't marked is named, where it is met.
marked unmarked unmarked -DKIND=STORES
ends 'an unlock by inline assembly' 2 "$folder/unmarked" --schedule steps --orders c++
has_told 'an unlock by inline assembly: what is told' '^warning: code that the compiler has not marked, or .* stores to what is loaded at .*may be false$'
ends 'an unlock by inline assembly, right so far' 0 "$folder/unmarked" --schedule steps --orders c++ --rounds 12
has_told 'an unlock by inline assembly, right so far: the report' '"untracked":\["stores"'
ends 'an unlock by inline assembly, right so far: no line' 1 grep 'may be false' "$folder/told"
marked unmarked unmarked -DKIND=FUTEX
if has objdump 'a lock by inline assembly'; then
    ends 'a lock by inline assembly' 0 "$folder/unmarked" --schedule steps --orders c++ --rounds 1000
    has_told 'a lock by inline assembly: what is told' -E '^warning: the x86 and C\+\+20 memory models were not tested, because unmarked code in (begin|exchange_unmarked) locks '
    cp "$folder/told" "$folder/output"
    has_told 'a lock by inline assembly: the report' '"untracked":\["locks"\]}'
fi
ends 'a lock by inline assembly, without objdump' 2 env "PATH=$folder/none" "$folder/unmarked" --schedule steps --orders c++
has_told 'a lock by inline assembly, without objdump: what is told' '^warning: a lock or a wait of code that the compiler has not marked, in .*may be false$'
link=("${link[@]:1}")
marked unseen memories/global -DLOCK=MUTEX
ends 'a mutex that is not wrapped' 4 "$folder/unseen" --schedule steps --orders c++
has_told 'a mutex that is not wrapped: what is told' "^--orders: locks are not wrapped\. Link with 'pkg-config --libs tmwatch_steps'$"

# What orders transactions, and what shows locks, is needed: without it right memories come out violated.
planted() {
    local name=$1 file=$2 memory=$3
    mkdir "$folder/planted"
    cp -r "$top/bench-c" "$top/packaging" "$folder/planted"
    sed -i "$4" "$folder/planted/bench-c/$file"
    ends "$name: planted" 1 cmp -s "$top/bench-c/$file" "$folder/planted/bench-c/$file"
    top=$folder/planted folder=$folder/planted build_bench "$cc" -std=c11 -O0 -pthread "-I$top/include"
    link=("$waits" "$blocks" "$folder/planted/lib/libtmwatch_steps.a" "$folder/planted/lib/libtmwatch_bench.a" "$built/lib/libtmwatch.a")
    marked planted_memory "memories/$memory" -DLOCK=MUTEX
    ends "$name: a right memory is violated" 1 "$folder/planted_memory" --schedule steps --orders c++
    rm -r "$folder/planted"
}
planted 'a beginning that knows no end' attempts.c sequence 's/tmwatch_orders_begins(.*);/(void)0;/'
planted 'an end that nobody knows' attempts.c tl2 's/tmwatch_orders_ends(.*);/(void)0;/'
planted 'a mutex that acquires nothing' instrumented/waits.c global 's/tmwatch_orders_locked(.*);/(void)is_shared, (void)lock;/'
planted 'a mutex that releases nothing' instrumented/waits.c global 's/tmwatch_orders_unlocks(.*);/(void)lock;/'
link=("$waits" "$blocks" "$folder/lib/libtmwatch_steps.a" "$folder/lib/libtmwatch_bench.a" "$built/lib/libtmwatch.a")

marked two two_benches
ends 'two benches at once' 0 "$folder/two"
ends 'orders by rounds' 4 "$folder/wrong" --schedule rounds --orders c++
has_told 'orders by rounds: why' '^--orders: only with --schedule steps or all$'
ends 'other orders' 4 "$folder/wrong" --orders arm
end_rows
