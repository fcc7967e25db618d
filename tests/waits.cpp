// How the threads of a run wait for each other: a model of all that they share, explored state by state.
//
// One transition is one atomic step on something that two threads share, with the work on the thread's own values up to
// its next such step. tests/waits.md says what functions of the source each transition is.
// All steps are sequentially consistent. What only one of two threads can change is looked at together with the
// step that follows the look: an item that an end of a ring knows stays there, and so does a free slot.
//
// usage: waits [NAME=VALUE ..]    the settings are those of `Setting`; status 1 where a run can fail to end
//
// A setting is explored whole. The line printed has the states that were seen; "stuck", sets of states from which no end
// can be reached; "loops", in which each thread that can move moves for ever; and "wrong", ends that no run may have.
#include <array>
#include <cstdint>
#include <cstdio>
#include <cstdlib>
#include <cstring>
#include <string>
#include <type_traits>
#include <unordered_map>
#include <vector>

namespace {

using Byte = std::uint8_t;
constexpr int MOST = 3;  // cores, and connections

struct Setting {
    int cores = 2, connections = 1;
    std::string segments = "0";  // the connection of each segment, one command each
    int rest = 0;                // after how many idle turns a core naps; 0 for no naps
    int here = 0;                // bit i: core i is with the caller, since its thread was refused
    int drives = 0;              // 1: the caller drives core 0
    int ring = 1, events = 1;    // slots of a receive ring, and of an event ring
    int items = 2, limit = 1;    // items a turn, commands a hold
    int row = 1;                 // items that the caller offers in a row
    int refusals = 0;            // how many allocations may be refused
    int breaks = 0;              // 1: the source may break at any item
    int shard = 0;               // 1: all commands call one shard
    int blocks = -1;             // after how many items the source gives none for ever
    int processors = 0;          // threads that run at once, each until it gives way; 0 for any number
    std::string mistake;         // what is done wrong
    long most = 4000000;         // states
} setting;

bool is(const char *mistake) { return setting.mistake == mistake; }
int home_of(int connection) { return connection % setting.cores; }
int place_of(int connection) { return connection / setting.cores; }
int places(int core) { return (setting.connections - core + setting.cores - 1) / setting.cores; }
bool is_here(int core) { return (setting.here >> core & 1) || (setting.drives && core == 0); }
bool has_here() { return setting.here || setting.drives; }
int caller() { return setting.cores; }
int item_count() { return static_cast<int>(setting.segments.size()) + setting.cores; }

// The core and the connection of an item of the feeder; the last items are the ends, which have no connection.
int core_of_item(int item) {
    int segments = static_cast<int>(setting.segments.size());
    return item < segments ? home_of(setting.segments[item] - '0') : item - segments;
}

// ---- a state

// What a thread does next.
enum At : Byte {
    GONE, WATCH, ANNOUNCE, RECEIVE, OFFER, PUBLISH, BELLS, COLLECT, LOOK_OWN, TAKE_OWN, LOOK_OTHER, TAKE_OTHER, FRAME,
    LOOK_SHARD, TAKE_SHARD, ANSWER, GIVE_BACK, LOAD_DONE, LOAD_STOP, PARK, TAKE_TOKEN, SLEEP, ASLEEP, WITHDRAW, COUNT,
    LOAD_SLEEPERS, RING, WAKE, READ_DONE, READ_STOP, SET_STOP, FEED, BLOCKED, CALLER_STOPS, JOIN
};
const char *const NAMES[] = {
    "gone", "watch", "announce", "receive", "offer", "publish", "bells", "collect", "look own", "take own", "look other",
    "take other", "frame", "look shard", "take shard", "answer", "give back", "load done", "load stop", "park",
    "take token", "sleep", "asleep", "withdraw", "count", "load sleepers", "ring", "wake", "read done", "read stop",
    "set stop", "feed", "blocked", "caller stops", "join"};
enum Round : Byte { IDLE, WORKED, BUSY, COUNTED, RESTED };
enum After : Byte { TOUCHED, COLLECTED, OWNED };              // what follows a settled block
enum Purpose : Byte { ROUND, STOP, ITEM, CALLERS_CORES, END };  // why sleepers are loaded
enum How : Byte { RUNS, ENDED, BROKEN, STOPPED };

struct Connection {
    Byte waiting, offered;  // frames at its home, and in its event ring
    Byte begun, finished;   // whether a command is begun, and how many are finished
    Byte is_idle;           // its block is in its home's hand
};

struct Core {
    Byte put, taken;               // items of its receive ring
    Byte queue[MOST], queued;      // its shuffle queue, of connections
    Byte bells;                    // its doorbells, a bit for each place
    Byte ended, refused, counted;  // as its home and its control pass know
    Byte all_done;                 // it read that all cores are done
    Byte first_victim, idle_turns;
};

struct Thread {
    Byte at, core, connection, victim, after, purpose;
    Byte received, collected, touched, finished;
    Byte worked, busy, failed, stealing, napping, settled, withdrawn, raced, round, ringing;
};

struct State {
    Connection connections[MOST];
    Core cores[MOST];
    Thread threads[MOST + 1];  // those of the cores, and the caller
    Byte done, stop, sleepers, token[MOST], shard;
    Byte refusals, running, faults;
    Byte fed, offered, in_row, how, next_core;          // the caller's own
    Byte calls, worked_here, is_clear;  // its cores made work for others, worked, and have nothing left to do
};
static_assert(std::has_unique_object_representations_v<State>);

int thief_victim(const State &state, int core, int at) {
    int others = setting.cores - 1, other = (state.cores[core].first_victim + at) % others;
    return other < core ? other : other + 1;
}

bool is_settled(const State &state, int core) {
    if (!state.cores[core].ended || state.cores[core].refused) return false;
    for (int c = core; c < setting.connections; c += setting.cores)
        if (!state.connections[c].is_idle) return false;
    return true;
}

// ---- the steps of a thread

// Moves one thread by one step. A refused allocation, or a source that breaks, is a choice.
class Step {
  public:
    Step(State &state, int number)
        : s(state), number(number), me(state.threads[number]), core(state.cores[me.core]) {}

    // Makes the step; says whether there is one.
    bool make(bool refuses) {
        if (refuses && !can_refuse()) return false;
        refused = refuses;
        if (me.at <= OFFER || me.at == PUBLISH || me.at == BELLS || me.at == COLLECT) receive_and_collect();
        else if (me.at <= GIVE_BACK) serve();
        else if (me.at <= WITHDRAW) nap();
        else if (me.at <= SET_STOP) end_round();
        else call();
        return true;
    }

  private:
    State &s;
    int number;
    Thread &me;
    Core &core;
    bool refused = false;

    bool is_caller() const { return number == caller(); }

    bool can_refuse() const {
        if (me.at == FEED) return setting.breaks && s.how == RUNS && !is_ended();
        bool asks = me.at == RECEIVE ? core.put != core.taken : me.at == COLLECT || me.at == ANSWER;
        return asks && s.refusals < setting.refusals;
    }

    // -- a round of a thread's core, or of one of the caller's

    void begin_round() {
        me.napping = setting.rest > 0 && core.idle_turns >= setting.rest && !is_caller();
        if (me.napping && !is("announces-late")) me.at = ANNOUNCE;
        else begin_turn();
    }

    void begin_turn() {
        Byte napping = me.napping, at_core = me.core;
        me = Thread{};
        me.napping = napping, me.core = at_core;
        if (core.refused) fail();
        else me.at = RECEIVE;
    }

    void fail() {
        me.failed = 1;
        end_turn();
    }

    void receive_and_collect() {
        switch (me.at) {
        case WATCH: s.stop ? leave() : begin_round(); break;
        case ANNOUNCE: s.sleepers |= 1 << me.core; begin_turn(); break;
        case RECEIVE: receive(); break;
        case OFFER: offer(); break;
        case PUBLISH: core.queue[core.queued++] = me.connection; go_on_after(); break;
        case BELLS: look_at_bells(); break;
        default: collect(); break;
        }
    }

    void receive() {
        if (core.put == core.taken) {
            me.received ? settle_touched() : begin_collecting();
            return;
        }
        int item = nth_item(core.taken++);
        me.worked = 1, me.received++, core.refused = 1;
        if (refused) return s.refusals++, fail();
        if (item >= static_cast<int>(setting.segments.size())) {
            core.ended = 1;
            return go_on_receiving();
        }
        me.connection = setting.segments[item] - '0';
        Connection &connection = s.connections[me.connection];
        connection.waiting++;
        if (!connection.is_idle) me.at = OFFER;
        else me.touched |= 1 << me.connection, go_on_receiving();
    }

    // The item of this core's ring with this number.
    int nth_item(int number) const {
        for (int item = 0; item < item_count(); item++)
            if (core_of_item(item) == me.core && number-- == 0) return item;
        std::abort();
    }

    void go_on_receiving() {
        if (me.received >= setting.items) settle_touched();
        else me.at = RECEIVE;
    }

    // A frame of a block that is away goes into its event ring, if there is room.
    void offer() {
        Connection &connection = s.connections[me.connection];
        if (!connection.waiting || connection.offered >= setting.events) return go_on_receiving();
        connection.waiting--, connection.offered++;
    }

    void settle_touched() {
        for (int c = 0; c < setting.connections; c++)
            if (me.touched >> c & 1) {
                me.touched &= ~(1 << c);
                if (s.connections[c].is_idle) return settle(c, TOUCHED);
            }
        core.refused = 0;
        begin_collecting();
    }

    // Settles a block that this thread has: it is published exactly if it has a command or a frame.
    void settle(int c, After after) {
        Connection &connection = s.connections[c];
        me.after = after, me.connection = c;
        while (connection.waiting && connection.offered < setting.events && !is("settles-without-frames"))
            connection.waiting--, connection.offered++;
        connection.is_idle = !connection.begun && !connection.offered;
        if (connection.is_idle) go_on_after();
        else me.at = PUBLISH;
    }

    void go_on_after() {
        if (me.after == TOUCHED) settle_touched();
        else if (me.after == OWNED) end_turn();
        else go_on_collecting();
    }

    void begin_collecting() {
        me.received = me.collected = 0;
        go_on_collecting();
    }

    void go_on_collecting() {
        if (me.collected < places(me.core)) me.at = BELLS;
        else claim();
    }

    void claim() { me.collected = me.connection = me.after = 0, me.at = LOOK_OWN; }

    void look_at_bells() {
        if (!core.bells) claim();
        else me.at = COLLECT, me.connection = __builtin_ctz(core.bells) * setting.cores + me.core;
    }

    void collect() {
        if (is("clears-all-bells")) core.bells = 0;
        core.bells &= ~(1 << place_of(me.connection));
        me.collected++, me.worked = 1;
        if (!refused) return settle(me.connection, COLLECTED);
        s.refusals++, core.refused = 1, s.connections[me.connection].is_idle = 1;
        fail();
    }

    void serve() {
        switch (me.at) {
        case LOOK_OWN: core.queued ? look(TAKE_OWN) : steal(0); break;
        case TAKE_OWN: me.raced ? steal(0) : take(me.core); break;
        case LOOK_OTHER: look_other(); break;
        case TAKE_OTHER: me.raced ? steal(me.victim + 1) : take(thief_victim(s, me.core, me.victim)); break;
        case FRAME: begin_command(); break;
        case LOOK_SHARD: s.shard ? find_busy() : look(TAKE_SHARD); break;
        case TAKE_SHARD: me.raced ? find_busy() : take_shard(); break;
        case ANSWER: answer(); break;
        default: give_back(); break;
        }
    }

    // A look at a word that an exchange will change only if it is as it was.
    void look(At then) { me.at = then, me.raced = 0; }

    // Exchanges that others have looked before will fail.
    void race(At at, int victim) {
        for (int t = 0; t <= caller(); t++) {
            Thread &other = s.threads[t];
            bool same = victim < 0 || (other.at == TAKE_OWN ? other.core == victim
                : other.at == TAKE_OTHER && thief_victim(s, other.core, other.victim) == victim);
            if (t != number && same && (victim >= 0 || other.at == at)) other.raced = 1;
        }
    }

    void steal(int victim) {
        me.victim = victim, me.raced = 0;
        if (victim < setting.cores - 1) {
            me.at = LOOK_OTHER;
            return;
        }
        count_steal();
        end_turn();
    }

    void count_steal() {
        if (setting.cores > 1) core.first_victim = (core.first_victim + 1) % (setting.cores - 1);
    }

    void look_other() {
        if (s.cores[thief_victim(s, me.core, me.victim)].queued) look(TAKE_OTHER);
        else steal(me.victim + 1);
    }

    void take(int victim) {
        Core &from = s.cores[victim];
        me.connection = from.queue[0], me.worked = 1, me.stealing = victim != me.core, me.finished = 0;
        std::memmove(from.queue, from.queue + 1, MOST - 1);
        from.queue[--from.queued] = 0;
        race(TAKE_OWN, victim);
        if (me.stealing) count_steal();
        go_on_holding();
    }

    void go_on_holding() {
        if (s.connections[me.connection].begun) begin_call();
        else me.at = FRAME;
    }

    void begin_command() {
        Connection &connection = s.connections[me.connection];
        if (!connection.offered) return end_hold();
        connection.offered--, connection.begun = 1;
        begin_call();
    }

    void begin_call() { me.at = setting.shard ? LOOK_SHARD : ANSWER; }

    void find_busy() {
        me.busy = 1;
        end_hold();
    }

    void take_shard() { s.shard = 1, race(TAKE_SHARD, -1), me.at = ANSWER; }

    void answer() {
        s.shard = 0;
        Connection &connection = s.connections[me.connection];
        if (refused) {
            s.refusals++, me.failed = 1;
            return end_hold();
        }
        connection.begun = 0, connection.finished++;
        if (++me.finished < setting.limit) me.at = FRAME;
        else end_hold();
    }

    void end_hold() {
        if (me.stealing) {
            if (is("calls-before-bell") && setting.rest) ring_at_once();
            me.at = GIVE_BACK;
            return;
        }
        if (!me.failed) return settle(me.connection, OWNED);
        s.connections[me.connection].is_idle = 1, core.refused = 1;
        end_turn();
    }

    // All rings of a call up in one step, for a mistake.
    void ring_at_once() {
        for (int i = 0; i < setting.cores; i++)
            if (s.sleepers >> i & 1) {
                if (s.token[i] == 1 && s.threads[i].at == ASLEEP) s.threads[i].at = TAKE_TOKEN;
                s.token[i] = 2;
            }
    }

    void give_back() {
        s.cores[home_of(me.connection)].bells |= 1 << place_of(me.connection);
        end_turn();
    }

    // -- the end of a turn, and a nap

    void end_turn() {
        me.settled = !me.worked && is_settled(s, me.core);
        me.round = me.busy ? BUSY : me.worked ? WORKED : IDLE;
        me.victim = me.raced = me.finished = me.stealing = me.connection = me.after = me.received = 0;
        if (is_caller()) return me.failed ? stop_as(STOPPED) : count_if_settled();
        if (!me.napping) return me.failed ? go(SET_STOP) : count_if_settled();
        if (is("announces-late")) s.sleepers |= 1 << me.core;
        go(me.failed ? WITHDRAW : LOAD_DONE);
    }

    void go(At at) { me.at = at; }

    bool has_worked() const { return me.round == WORKED || me.round == BUSY; }

    void nap() {
        switch (me.at) {
        case LOAD_DONE: me.withdrawn = s.done == setting.cores && !is("rests-though-done"); go(LOAD_STOP); break;
        case LOAD_STOP: rest_or_not(); break;
        case PARK: s.token[me.core] += s.token[me.core] == 0; go(TAKE_TOKEN); break;
        case TAKE_TOKEN: take_token(); break;
        case SLEEP: go(s.token[me.core] == 1 ? ASLEEP : TAKE_TOKEN); break;
        default: withdraw(); break;
        }
    }

    void rest_or_not() {
        bool is_awake = (has_worked() && !is("rests-after-work")) || (me.settled && !core.counted);
        bool is_ending = me.withdrawn || (s.stop && !is("rests-though-stopped"));
        me.withdrawn = 0;
        if (is_awake || is_ending) return go(WITHDRAW);
        me.round = RESTED;
        if (is("withdraws-first")) s.sleepers &= ~(1 << me.core), me.withdrawn = 1;
        go(PARK);
    }

    void take_token() {
        if (s.token[me.core] != 2) return go(SLEEP);
        s.token[me.core] = 0;
        go(WITHDRAW);
    }

    void withdraw() {
        if (!me.withdrawn) s.sleepers &= ~(1 << me.core);
        me.napping = me.withdrawn = 0;
        me.failed ? go(SET_STOP) : count_if_settled();
    }

    // -- the end of a round

    void end_round() {
        switch (me.at) {
        case COUNT: s.done++, core.counted = 1, me.round += me.round == IDLE ? COUNTED : 0; call_up(); break;
        case LOAD_SLEEPERS: load_sleepers(); break;
        case RING: ring(); break;
        case WAKE: wake(); break;
        case READ_DONE: read_done(); break;
        case READ_STOP: s.stop ? leave() : begin_round(); break;
        default: s.stop = !is("refusal-stops-nobody"), me.round = me.failed = 0, load_if(!is("stop-rings-nobody"), STOP);
        }
    }

    void count_if_settled() {
        if (!core.counted && is_settled(s, me.core)) go(COUNT);
        else call_up();
    }

    void call_up() {
        bool calls = has_worked() || me.round == COUNTED;
        if (is_caller()) {
            s.calls |= calls, s.worked_here |= calls;
            return go(READ_DONE);
        }
        bool silent = is("work-calls-nobody") || (is("calls-before-bell") && has_worked());
        load_if(calls && !silent, ROUND);
    }

    // Loads sleepers if that is due and cores rest, and then goes on.
    void load_if(bool is_due, Purpose purpose) {
        me.purpose = purpose;
        if (is_due && setting.rest) go(LOAD_SLEEPERS);
        else go_on_rung();
    }

    void load_sleepers() {
        me.ringing = s.sleepers;
        if (is("rings-one")) me.ringing &= -me.ringing;
        go_on_ringing();
    }

    void go_on_ringing() {
        if (me.ringing) go(RING);
        else go_on_rung();
    }

    int rung() const { return __builtin_ctz(me.ringing); }

    void ring() {
        Byte before = s.token[rung()];
        if (before == 1 || !is("token-only-where-parked")) s.token[rung()] = 2;
        if (before == 1 && !is("wakes-nobody")) return go(WAKE);
        me.ringing &= me.ringing - 1;
        go_on_ringing();
    }

    void wake() {
        Thread &sleeper = s.threads[rung()];
        if (sleeper.at == ASLEEP) sleeper.at = TAKE_TOKEN;
        me.ringing &= me.ringing - 1;
        go_on_ringing();
    }

    void go_on_rung() {
        switch (me.purpose) {
        case ROUND: go(READ_DONE); break;
        case STOP: go(READ_STOP); break;
        case ITEM: is("rings-before-item") ? put_item() : after_item(); break;
        case CALLERS_CORES: s.calls = 0; me = Thread{}; end_callers_round(); break;
        default: go(JOIN);
        }
    }

    void read_done() {
        core.all_done = s.done == setting.cores;
        if (is_caller()) return s.next_core++, turn_of_next();
        bool found = has_worked() || me.round == RESTED;
        core.idle_turns = found ? 0 : std::min<int>(core.idle_turns + 1, setting.rest);
        if (core.all_done) return leave();
        bool waits = me.round == IDLE || me.round == COUNTED || (me.round == BUSY && !is("keeps-on-at-a-busy-shard"));
        me.round = me.busy = me.worked = 0;
        go(READ_STOP);
        if (waits) give_way();
    }

    void leave() {
        Byte at_core = me.core;
        me = Thread{};
        me.core = at_core, core.idle_turns = 0;
        give_way();
    }

    void give_way() { s.running &= ~(1 << number); }

    // -- the caller

    bool is_ended() const { return s.fed >= item_count(); }

    void call() {
        switch (me.at) {
        case FEED: feed(); break;
        case CALLER_STOPS: s.stop |= !is("caller-stops-nobody"), load_if(!is("caller-stop-rings-nobody"), END); break;
        default: me = Thread{}, give_way();
        }
    }

    // A step of the feeder; cores that are with the caller have turns before it may wait.
    void feed() {
        if (refused) return stop_as(BROKEN);
        s.offered = 0;
        if (is_ended()) return after_item();
        if (s.fed == setting.blocks) {
            if (has_here() && !s.is_clear && !is("source-before-turns")) return go_on_here();
            me = Thread{};
            return go(BLOCKED), give_way();
        }
        Core &to = s.cores[core_of_item(s.fed)];
        if (to.put - to.taken >= setting.ring) return after_item();
        if (is("rings-before-item")) return load_if(true, ITEM);
        put_item();
    }

    void put_item() {
        s.cores[core_of_item(s.fed)].put++;
        s.fed++, s.offered = 1, s.is_clear = 0;
        if (is("rings-before-item")) after_item();
        else load_if(!is("item-rings-nobody"), ITEM);
    }

    void after_item() {
        me.purpose = 0;
        s.in_row = s.offered && s.in_row < setting.row ? s.in_row + 1 : 0;
        if (has_here() && !s.in_row) go_on_here();
        else after_turns();
    }

    // A turn of each core that is with the caller.
    void go_on_here() {
        s.next_core = s.worked_here = 0;
        turn_of_next();
    }

    void turn_of_next() {
        while (s.next_core < setting.cores && (!is_here(s.next_core) || s.cores[s.next_core].all_done)) s.next_core++;
        if (s.next_core >= setting.cores) {
            s.is_clear = !s.worked_here && are_here();
            return after_turns();
        }
        me = Thread{};
        me.core = s.next_core;
        Step(s, number).begin_turn();
    }

    // Whether each block of the caller's cores is with its home.
    bool are_here() const {
        for (int c = 0; c < setting.connections; c++)
            if (is_here(home_of(c)) && !s.connections[c].is_idle && !is("source-before-blocks")) return false;
        return true;
    }

    void after_turns() {
        me = Thread{};
        s.next_core = 0;
        load_if(s.calls && !is("caller-calls-nobody"), CALLERS_CORES);
    }

    void stop_as(How how) {
        s.how = how;
        me = Thread{};
        go(CALLER_STOPS);
    }

    // The end of a round of the caller's loop.
    void end_callers_round() {
        bool all_done = is_ended();
        for (int i = 0; i < setting.cores; i++) all_done = all_done && (!is_here(i) || s.cores[i].all_done);
        if (all_done) {
            s.how = ENDED, s.worked_here = s.offered = s.in_row = s.is_clear = 0;
            return go(JOIN);
        }
        bool waits = !s.offered && !s.worked_here;
        s.worked_here = 0;
        go(READ_STOP);
        if (waits) give_way();
    }

  public:
    // The caller's look at stop, before it feeds.
    void look_at_stop() {
        if (s.stop && !is("caller-heeds-no-stop")) stop_as(STOPPED);
        else go(FEED);
    }
};

// ---- what can move

// Whether a thread could move, if it had a processor.
bool is_ready(const State &state, int thread) {
    switch (state.threads[thread].at) {
    case GONE: case ASLEEP: case BLOCKED: return false;
    case JOIN:
        for (int i = 0; i < caller(); i++)
            if (state.threads[i].at != GONE) return false;
        return true;
    default: return true;
    }
}

// The moves of a state: of each thread a step, a step with a refusal, that it gets a processor, and that it loses its
// processor while it has a shard, as by a page fault; this comes once in a run.
constexpr int KINDS = 4;
int moves() { return KINDS * (caller() + 1); }

bool move(State &state, int number) {
    int thread = number / KINDS, kind = number % KINDS;
    Byte bit = static_cast<Byte>(1 << thread);
    if (!is_ready(state, thread)) return false;
    bool runs = !setting.processors || state.running & bit;
    At at = static_cast<At>(state.threads[thread].at);
    if (kind == 2 && (runs || __builtin_popcount(state.running) >= setting.processors)) return false;
    if (kind == 2) return state.running |= bit, true;
    if (!runs || (kind == 3 && (!setting.processors || state.faults || at != ANSWER || !state.shard))) return false;
    if (kind == 3) return state.running &= ~bit, state.faults = 1, true;
    if (thread == caller() && at == READ_STOP) {
        if (kind) return false;
        Step(state, thread).look_at_stop();
    } else if (!Step(state, thread).make(kind == 1)) {
        return false;
    }
    if (!is_ready(state, thread)) state.running &= ~bit;
    return true;
}

State first_state() {
    State state;
    std::memset(&state, 0, sizeof state);
    for (int c = 0; c < setting.connections; c++) state.connections[c].is_idle = 1;
    for (int i = 0; i < setting.cores; i++) {
        state.threads[i].core = static_cast<Byte>(i);
        state.threads[i].at = is_here(i) ? GONE : WATCH;
    }
    state.threads[caller()].at = READ_STOP;
    return state;
}

bool has_ended(const State &state) {
    for (int t = 0; t <= caller(); t++)
        if (state.threads[t].at != GONE) return false;
    return true;
}

int finished(const State &state) {
    int count = 0;
    for (int c = 0; c < setting.connections; c++) count += state.connections[c].finished;
    return count;
}

// What is wrong with an end, or nothing.
const char *wrong_end(const State &state) {
    bool all_done = state.how == ENDED;
    for (int i = 0; i < setting.cores; i++) all_done = all_done && state.cores[i].all_done;
    if (!all_done) return state.refusals || state.how == BROKEN ? nullptr : "not settled, though nothing was refused";
    if (finished(state) != static_cast<int>(setting.segments.size())) return "settled with commands left";
    return nullptr;
}

// A source that gives no more: all that was offered is served, or the run stops.
bool is_served(const State &state) { return state.stop || finished(state) == setting.blocks; }

// ---- the search

struct Hash {
    std::size_t operator()(const State &state) const {
        const Byte *bytes = reinterpret_cast<const Byte *>(&state);
        std::uint64_t hash = 1469598103934665603u;
        for (std::size_t i = 0; i < sizeof state; i++) hash = (hash ^ bytes[i]) * 1099511628211u;
        return hash ^ hash >> 32;
    }
};
struct Same {
    bool operator()(const State &a, const State &b) const { return !std::memcmp(&a, &b, sizeof a); }
};

// Finds the sets of states that reach each other, by Tarjan's algorithm, and judges each.
class Search {
  public:
    long stuck = 0, loops = 0, wrong = 0, ends = 0, steps = 0;
    std::vector<const State *> states;

    // Explores all states; false if there are too many.
    bool explore() {
        open(number_of(first_state()));
        while (!visits.empty()) {
            if (static_cast<long>(states.size()) > setting.most) return false;
            advance();
        }
        return true;
    }

  private:
    struct Visit { std::uint32_t state; int next; };
    std::unordered_map<State, std::uint32_t, Hash, Same> numbers;
    std::vector<std::uint32_t> low, open_states;
    std::vector<Byte> is_open;
    std::vector<Visit> visits;
    int shown = 0;

    std::uint32_t number_of(const State &state) {
        auto [at, is_new] = numbers.try_emplace(state, static_cast<std::uint32_t>(states.size()));
        if (is_new) states.push_back(&at->first);
        return at->second;
    }

    // States are numbered in the order in which the search finds them.
    void open(std::uint32_t state) {
        low.resize(state + 1), is_open.resize(state + 1);
        low[state] = state, is_open[state] = 1;
        open_states.push_back(state);
        visits.push_back({state, 0});
    }

    void advance() {
        Visit &visit = visits.back();
        std::uint32_t from = visit.state;
        if (visit.next < moves()) {
            State state = *states[from];
            if (!move(state, visit.next++)) return;
            steps++;
            std::size_t before = states.size();
            std::uint32_t to = number_of(state);
            if (states.size() > before) open(to);
            else if (is_open[to]) low[from] = std::min(low[from], low[to]);
            return;
        }
        visits.pop_back();
        if (!visits.empty()) low[visits.back().state] = std::min(low[visits.back().state], low[from]);
        if (low[from] == from) close(from);
    }

    // A set is complete: its states are those that were opened since its first.
    void close(std::uint32_t first) {
        std::vector<std::uint32_t> set;
        do {
            set.push_back(open_states.back());
            open_states.pop_back();
            is_open[set.back()] = 2;
        } while (set.back() != first);
        judge(set);
        for (std::uint32_t state : set) is_open[state] = 0;
    }

    void judge(const std::vector<std::uint32_t> &set) {
        bool leaves = false, is_loop = false;
        unsigned moved = 0, waits = 0;
        for (std::uint32_t number : set) {
            for (int t = 0; t <= caller(); t++) waits |= unsigned(!is_ready(*states[number], t)) << t;
            for (int k = 0; k < moves(); k++) {
                State state = *states[number];
                if (!move(state, k)) continue;
                if (is_open[number_of(state)] == 2) is_loop = true, moved |= 1u << k / KINDS;
                else leaves = true;
            }
        }
        unsigned all = (1u << (caller() + 1)) - 1;
        const State &state = *states[set.front()];
        if (set.size() == 1 && has_ended(state)) return judge_end(state);
        if (!leaves && is_quiet(set)) return void(ends++);
        if (!leaves) stuck++, show("no end can be reached", state);
        else if (is_loop && ((moved | waits) & all) == all) loops++, show("a loop for ever", state);
    }

    void judge_end(const State &state) {
        ends++;
        if (const char *why = wrong_end(state)) wrong++, show(why, state);
    }

    // The source blocks, and all that was offered is served.
    bool is_quiet(const std::vector<std::uint32_t> &set) const {
        for (std::uint32_t number : set)
            if (states[number]->threads[caller()].at != BLOCKED || !is_served(*states[number])) return false;
        return true;
    }

    void show(const char *what, const State &state) {
        if (shown++) return;
        std::printf("  %s:", what);
        for (int t = 0; t <= caller(); t++)
            std::printf(" %s %s (core %d);", t == caller() ? "caller" : "thread", NAMES[state.threads[t].at], state.threads[t].core);
        std::printf(" done %d, stop %d, sleepers %d, fed %d, finished %d\n", state.done, state.stop, state.sleepers, state.fed,
                    finished(state));
    }
};

// ---- words

bool set(const std::string &name, const std::string &value) {
    const std::unordered_map<std::string, int *> numbers = {
        {"cores", &setting.cores}, {"connections", &setting.connections}, {"rest", &setting.rest}, {"here", &setting.here},
        {"drives", &setting.drives}, {"ring", &setting.ring}, {"events", &setting.events}, {"items", &setting.items},
        {"limit", &setting.limit}, {"row", &setting.row}, {"refusals", &setting.refusals}, {"breaks", &setting.breaks},
        {"shard", &setting.shard}, {"blocks", &setting.blocks}, {"processors", &setting.processors}};
    if (name == "segments") setting.segments = value;
    else if (name == "mistake") setting.mistake = value;
    else if (name == "most") setting.most = std::atol(value.c_str());
    else if (auto at = numbers.find(name); at != numbers.end()) *at->second = std::atoi(value.c_str());
    else return false;
    return true;
}

}  // namespace

int main(int count, char **words) {
    for (int i = 1; i < count; i++) {
        std::string word = words[i];
        std::size_t sign = word.find('=');
        if (sign == std::string::npos || !set(word.substr(0, sign), word.substr(sign + 1))) {
            std::fprintf(stderr, "waits: unknown word %s\n", words[i]);
            return 2;
        }
    }
    Search search;
    bool is_whole = search.explore();
    std::printf("states %zu, steps %ld, ends %ld, stuck %ld, loops %ld, wrong %ld%s\n", search.states.size(), search.steps,
                search.ends, search.stuck, search.loops, search.wrong, is_whole ? "" : ", not all");
    return search.stuck || search.loops || search.wrong ? 1 : is_whole ? 0 : 3;
}
