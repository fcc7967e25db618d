/*
 * A simulation of the cores, for bench/simulate.py: a feeder, receive rings, turns, the shuffle queues, holds, steals
 * and the shards, event by event. It follows the rules of the program; each thing that a thread does takes the time
 * that is given for it. All times are nanoseconds.
 *
 * usage: cores NAME VALUE ..      each NAME is one of those that `given` lists; what is left out has the value there
 *
 * It prints a line NAME VALUE for each thing that it counted. A command has two segments, one after the other; or
 * `segment` commands have one. With `service` 0 all commands lie there when the run begins, and `wall` says when the
 * last one was done. Otherwise a command is one segment with one call, they come at random times at `load` of what
 * the cores could carry, and p50, p99 and p999 say how long they took, in mean service times.
 */
#include <algorithm>
#include <cmath>
#include <cstdio>
#include <cstdlib>
#include <cstring>
#include <deque>
#include <queue>
#include <random>
#include <string>
#include <utility>
#include <vector>

using Nanos = double;

const int ring_slots = 256, items_a_turn = 64, commands_a_hold = 64, groups = 128;

// ---- what is given

struct Given {
    // The run: cores, each on a thread; processors; whether the caller drives the first core; whether cores steal.
    double cores = 4, processors = 4, caller = 0, stealing = 1, skewed = 0;
    double connections = 200, commands = 100000, seed = 1;
    // Commands of a segment; 0 where a command has two. Calls of a command; shards.
    double segment = 0, calls = 3.3, shards = 16;
    // Under load: the mean service time, the load of the cores, and the law: 0 fixed, 1 exponential, 2 bimodal.
    double service = 0, load = 0.5, law = 1;
    // The feeder: an item is made and offered; a ring is found full.
    double feed = 315, full = 60;
    // The home: an item is received and cut; a block is settled and published; the doorbells are looked at.
    double item = 225, settle = 150, collect = 60;
    // A core: a turn begins; a block is claimed, with its hold's begin and end; another core is looked at; a theft.
    double turn = 60, claim = 150, look = 40, steal = 350;
    // A command, less its calls; a call on a shard; a call whose shard another core had last takes so much more.
    double command = 1500, call = 600, away = 720;
    // An idle thread: a pause of its spins, a yield; and how long a thread keeps its processor while others wait.
    double pause = 5, yield = 1200, slice = 3e6;
};

struct Name {
    const char *name;
    double Given::*value;
};

const Name given[] = {
    {"cores", &Given::cores},         {"processors", &Given::processors}, {"caller", &Given::caller},
    {"stealing", &Given::stealing},   {"skewed", &Given::skewed},         {"connections", &Given::connections},
    {"commands", &Given::commands},   {"seed", &Given::seed},             {"segment", &Given::segment},
    {"calls", &Given::calls},         {"shards", &Given::shards},         {"service", &Given::service},
    {"load", &Given::load},           {"law", &Given::law},               {"feed", &Given::feed},
    {"full", &Given::full},           {"item", &Given::item},             {"settle", &Given::settle},
    {"collect", &Given::collect},     {"turn", &Given::turn},             {"claim", &Given::claim},
    {"look", &Given::look},           {"steal", &Given::steal},           {"command", &Given::command},
    {"call", &Given::call},           {"away", &Given::away},             {"pause", &Given::pause},
    {"yield", &Given::yield},         {"slice", &Given::slice},
};

static Given read_given(int count, char **words) {
    Given found;
    for (int at = 1; at + 1 < count; at += 2) {
        auto is_it = [&](const Name &it) { return !strcmp(it.name, words[at]); };
        auto name = std::find_if(std::begin(given), std::end(given), is_it);
        if (name == std::end(given)) {
            fprintf(stderr, "cores: %s is no name\n", words[at]);
            exit(2);
        }
        found.*(name->value) = atof(words[at + 1]);
    }
    return found;
}

// ---- what there is

// What the feeder offers: a segment of a connection, which completes this many commands.
struct Item {
    int connection, completes;
    Nanos expected, service;
};

// A command that waits at its connection.
struct Command {
    Nanos expected, service;
};

enum class Place { idle, queued, held, returned };

struct Connection {
    int home = 0;
    Place place = Place::idle;
    std::deque<Command> waiting;
    // The calls that the command in progress still makes; below 0 where none is in progress.
    int left = -1;
};

struct Core {
    std::deque<Item> ring;
    std::deque<int> queue;
    std::vector<int> returned;
    Nanos at_home = 0, held = 0;
};

struct Shard {
    Nanos free_at = 0;
    int last = -1;
};

enum class Step { feed, turn, begin, call, end };

struct Thread {
    bool feeds = false, drives = true;
    int core = 0;
    Step step = Step::turn;
    // The block in the hand, the home that it is from, and the commands of its hold.
    int connection = -1, victim = -1, count = 0;
    // The items that the caller has offered since its last turn.
    int row = 0;
    // Looks in a row that found nothing.
    int idle = 0;
    Nanos slice = 0, used = 0;
    unsigned turns = 0;
};

// ---- the run

class Run {
public:
    explicit Run(const Given &given) : p(given), draws(unsigned(given.seed)) {
        cores.resize(size_t(p.cores));
        shards.resize(size_t(p.shards));
        make_connections();
        make_items();
        make_threads();
    }

    void carry_out() {
        for (size_t at = 0; at < threads.size(); at++) {
            if (int(at) < int(p.processors)) resume(int(at), 0);
            else ready.push_back(int(at));
        }
        while (done < total && !events.empty()) {
            auto [time, number] = events.top();
            events.pop();
            now = time;
            advance(threads[size_t(number)], number);
        }
    }

    void print() {
        double busy = 0, most_home = 0, calls = std::max(1.0, double(made + refused));
        for (const Core &core : cores) {
            busy += core.at_home + core.held;
            most_home = std::max(most_home, core.at_home);
        }
        printf("wall %.0f\ncommands %ld\nholds %ld\nstolen %ld\n", now, done, holds, stolen);
        printf("feeding %.4f\nat_home %.4f\nbusy %.4f\nrefused %.4f\nmoved %.4f\n", fed_for / now, most_home / now,
               busy / now / p.cores, double(refused) / calls, double(moved) * p.away / now / p.cores);
        if (p.service > 0) {
            std::sort(latencies.begin(), latencies.end());
            for (auto [name, part] : {std::pair("p50", 0.5), std::pair("p99", 0.99), std::pair("p999", 0.999)})
                printf("%s %.4f\n", name, latencies[size_t(part * double(latencies.size() - 1))] / p.service);
        }
    }

private:
    Given p;
    std::mt19937_64 draws;
    std::vector<Core> cores;
    std::vector<Connection> connections;
    std::vector<Shard> shards;
    std::vector<Thread> threads;
    std::vector<Item> items;
    size_t next = 0;
    long total = 0, done = 0, holds = 0, stolen = 0, made = 0, refused = 0, moved = 0;
    Nanos now = 0, fed_for = 0;
    std::vector<Nanos> latencies;
    // The next event of each thread that has a processor, and the threads that wait for one.
    std::priority_queue<std::pair<Nanos, int>, std::vector<std::pair<Nanos, int>>, std::greater<>> events;
    std::deque<int> ready;

    double drawn() { return std::uniform_real_distribution<>(0, 1)(draws); }
    int below(int limit) { return std::uniform_int_distribution<>(0, limit - 1)(draws); }

    // ---- what is served

    // The home of a connection is its number modulo 128 modulo the cores. Skewed, all are at home at core 0.
    void make_connections() {
        connections.resize(size_t(p.connections));
        for (size_t at = 0; at < connections.size(); at++)
            connections[at].home = p.skewed && p.service == 0 ? 0 : int(at) % groups % int(p.cores);
    }

    void make_items() {
        total = long(p.commands);
        if (p.service > 0) make_requests();
        else make_rounds();
    }

    // In each round a command of each connection, in two segments; or in each a segment with `segment` commands.
    void make_rounds() {
        int each = std::max(1, int(p.segment)), count = int(p.connections);
        total = total / (each * count) * each * count;
        for (long sent = 0; sent < total; sent += each * count)
            for (int at = 0; at < count; at++) {
                if (p.segment == 0) items.push_back({at, 0, 0, 0});
                items.push_back({at, each, 0, 0});
            }
    }

    // Requests of a Poisson process. Skewed, half of them are of connections of core 0.
    void make_requests() {
        std::vector<std::vector<int>> at_home(cores.size());
        for (size_t at = 0; at < connections.size(); at++) at_home[size_t(connections[at].home)].push_back(int(at));
        Nanos time = 0, gap = p.service / (p.cores * p.load);
        for (long sent = 0; sent < total; sent++) {
            time -= std::log(1 - drawn()) * gap;
            int core = home_of_request(int(cores.size()));
            const auto &here = at_home[size_t(core)];
            items.push_back({here[size_t(below(int(here.size())))], 1, time, service_time()});
        }
    }

    int home_of_request(int count) {
        if (!p.skewed || count == 1) return below(count);
        return below(2) ? 0 : 1 + below(count - 1);
    }

    Nanos service_time() {
        if (p.law == 0) return p.service;
        if (p.law == 1) return -std::log(1 - drawn()) * p.service;
        return (below(10) == 0 ? 100 : 10) * p.service / 19;
    }

    // Thread t drives core t. The feeder has a thread of its own, the last one, or is the thread of core 0.
    void make_threads() {
        threads.resize(cores.size() + (p.caller ? 0 : 1));
        for (size_t at = 0; at < threads.size(); at++) {
            threads[at].core = int(at);
            threads[at].feeds = p.caller ? at == 0 : at == cores.size();
            threads[at].drives = at < cores.size();
            threads[at].step = threads[at].feeds ? Step::feed : Step::turn;
        }
    }

    // ---- processors

    void resume(int number, Nanos time) {
        threads[size_t(number)].slice = p.slice;
        events.push({time, number});
    }

    // One step of a thread; then it goes on, or gives its processor to the thread that has waited longest.
    void advance(Thread &thread, int number) {
        bool yields = false;
        Nanos time = step_of(thread, yields);
        thread.used += time;
        thread.slice -= time;
        if ((yields || thread.slice < 0) && !ready.empty()) {
            int other = ready.front();
            ready.pop_front();
            ready.push_back(number);
            resume(other, now + time + p.yield);
        } else {
            if (thread.slice < 0) thread.slice = p.slice;
            events.push({now + time, number});
        }
    }

    Nanos step_of(Thread &thread, bool &yields) {
        switch (thread.step) {
        case Step::feed: return feed(thread, yields);
        case Step::turn: return turn(thread, yields);
        case Step::begin: return begin(thread);
        case Step::call: return call(thread);
        default: return end(thread);
        }
    }

    // What an idle look costs: 16 at once, then spins of 64 to 512 pauses, and then the thread yields.
    Nanos wait(Thread &thread, bool &yields) {
        thread.idle++;
        if (thread.idle <= 16) return 0;
        if (thread.idle <= 20) return p.pause * (64 << (thread.idle - 17));
        yields = true;
        return p.yield;
    }

    // ---- the feeder

    Nanos feed(Thread &thread, bool &yields) {
        bool goes_on = !thread.drives || (thread.row < items_a_turn && next < items.size());
        if (!goes_on) return take_turn(thread);
        if (next == items.size()) return p.yield + (yields = true, 0);
        const Item &item = items[next];
        if (item.expected > now) {
            if (thread.drives) return take_turn(thread);
            return item.expected - now;
        }
        std::deque<Item> &ring = cores[size_t(connections[size_t(item.connection)].home)].ring;
        if (ring.size() >= size_t(ring_slots)) {
            if (thread.drives) return p.full + take_turn(thread);
            return p.full + wait(thread, yields);
        }
        thread.idle = 0;
        thread.row++;
        ring.push_back(item);
        next++;
        fed_for += p.feed;
        return p.feed;
    }

    // The caller's next step is a turn of its core.
    Nanos take_turn(Thread &thread) {
        thread.row = 0;
        thread.step = Step::turn;
        return 0;
    }

    // ---- turns

    // Items are received, blocks are collected, and one is claimed or stolen.
    Nanos turn(Thread &thread, bool &yields) {
        Core &core = cores[size_t(thread.core)];
        Nanos spent = p.turn + receive(core) + collect(core);
        bool worked = spent > p.turn + p.collect;
        core.at_home += spent - p.turn;
        spent += claim(thread);
        thread.turns++;
        if (thread.connection >= 0) {
            thread.idle = 0;
            thread.step = Step::begin;
            return spent;
        }
        thread.step = thread.feeds ? Step::feed : Step::turn;
        if (worked) thread.idle = 0;
        else if (!thread.feeds || next == items.size()) spent += wait(thread, yields);
        return spent;
    }

    Nanos receive(Core &core) {
        Nanos spent = 0;
        for (int count = 0; count < items_a_turn && !core.ring.empty(); count++) {
            Item item = core.ring.front();
            core.ring.pop_front();
            spent += p.item;
            Connection &connection = connections[size_t(item.connection)];
            for (int at = 0; at < item.completes; at++) connection.waiting.push_back({item.expected, item.service});
            if (item.completes && connection.place == Place::idle) spent += publish(core, item.connection);
        }
        return spent;
    }

    Nanos collect(Core &core) {
        Nanos spent = p.collect;
        for (int number : core.returned) spent += p.collect + settle(core, number);
        core.returned.clear();
        return spent;
    }

    // A block that is back is published if there is something to do.
    Nanos settle(Core &core, int number) {
        Connection &connection = connections[size_t(number)];
        if (!connection.waiting.empty()) return publish(core, number);
        connection.place = Place::idle;
        return p.settle;
    }

    Nanos publish(Core &core, int number) {
        connections[size_t(number)].place = Place::queued;
        core.queue.push_back(number);
        return p.settle;
    }

    Nanos claim(Thread &thread) {
        if (take(thread, thread.core)) return p.claim;
        Nanos spent = 0;
        int count = int(cores.size());
        for (int at = 1; p.stealing && at < count; at++) {
            int victim = (thread.core + 1 + int((thread.turns + unsigned(at)) % unsigned(count - 1))) % count;
            if (victim == thread.core) continue;
            spent += p.look;
            if (take(thread, victim)) {
                stolen++;
                return spent + p.claim + p.steal;
            }
        }
        return spent;
    }

    bool take(Thread &thread, int victim) {
        std::deque<int> &queue = cores[size_t(victim)].queue;
        if (queue.empty()) return false;
        thread.connection = queue.front();
        queue.pop_front();
        thread.victim = victim;
        thread.count = 0;
        connections[size_t(thread.connection)].place = Place::held;
        holds++;
        return true;
    }

    // ---- holds

    // The next command of the hold begins, or the hold ends.
    Nanos begin(Thread &thread) {
        Connection &connection = connections[size_t(thread.connection)];
        if (connection.left >= 0) return goes_to(thread, Step::call, 0);
        if (connection.waiting.empty() || thread.count == commands_a_hold) return goes_to(thread, Step::end, 0);
        const Command &command = connection.waiting.front();
        if (p.service > 0 && 10 * done >= total) latencies.push_back(now + command.service - command.expected);
        connection.left = int(p.calls) + (drawn() < p.calls - int(p.calls) ? 1 : 0);
        return goes_to(thread, Step::call, p.command + command.service);
    }

    // The next call of the command. Where its shard is busy the hold ends, and the command goes on in a later one.
    Nanos call(Thread &thread) {
        Connection &connection = connections[size_t(thread.connection)];
        if (connection.left == 0) {
            connection.left = -1;
            connection.waiting.pop_front();
            thread.count++;
            done++;
            return goes_to(thread, Step::begin, 0);
        }
        Shard &shard = shards[size_t(below(int(shards.size())))];
        bool is_away = shard.last >= 0 && shard.last != thread.core;
        if (shard.free_at > now) {
            refused++;
            return goes_to(thread, Step::end, p.away);
        }
        Nanos spent = p.call + (is_away ? p.away : 0);
        shard.last = thread.core;
        shard.free_at = now + spent;
        connection.left--;
        made++;
        moved += is_away;
        return goes_to(thread, Step::call, spent);
    }

    // At home the block is settled; elsewhere it is given back.
    Nanos end(Thread &thread) {
        Nanos spent = 0;
        Connection &connection = connections[size_t(thread.connection)];
        if (thread.victim == thread.core) {
            spent = settle(cores[size_t(thread.core)], thread.connection);
            cores[size_t(thread.core)].at_home += spent;
        } else {
            connection.place = Place::returned;
            cores[size_t(thread.victim)].returned.push_back(thread.connection);
        }
        thread.connection = -1;
        thread.step = thread.feeds ? Step::feed : Step::turn;
        return spent;
    }

    Nanos goes_to(Thread &thread, Step step, Nanos time) {
        thread.step = step;
        cores[size_t(thread.core)].held += time;
        return time;
    }
};

int main(int count, char **words) {
    Run run(read_given(count, words));
    run.carry_out();
    run.print();
}
