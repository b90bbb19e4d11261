// Checks the protocol of lib/: visits every state of small scenarios, and shows that mutations of it break.
//   model [--long] [--jobs=N] [--trace] [NAME..]
// NAME is a scenario, a mutation, or one of "holds", "refines" and "mutations". Prints a line for each scenario and
// mutation, and the path to a broken law with --trace.
#include "refine.h"
#include "scenarios.h"
#include "search.h"
#include <atomic>
#include <cstdio>
#include <cstdlib>
#include <sys/mman.h>
#include <sys/wait.h>
#include <unistd.h>

Config config;
std::string broken;
Mutation mutation;

static const char *const step_names[] = {
#define NAME(n) #n,
    STEPS(NAME)};
static const char *const mutation_names[] = {MUTATIONS(NAME)};
#undef NAME
static const char *const event_names[] = {"", "other choice", "KILLED", "interrupted", "handler", "timeout", "drained"};

static Op op_of(char c)
{
    static const char letters[] = ".LTYUWwSBR";
    const char *at = strchr(letters, c);
    return Op(at ? at - letters : 0);
}
static void read_options(const char *o)
{
    for (; *o; o++)
        switch (*o) {
        case 'k':
            config.kills = o[2] - '0', o += 2;
            break;
        case 'r':
            config.reuses = o[2] - '0', o += 2;
            break;
        case 'i':
            config.interrupts = true;
            break;
        case 'h':
            config.handlers = true;
            break;
        case 's':
            config.spoils = true;
            break;
        case 'd':
            config.died = true;
            break;
        case 'b':
            config.buffers = true;
            break;
        case 'n':
            config.walk = WALK_NEWEST;
            break;
        case 'o':
            config.walk = WALK_OLD;
            break;
        }
}
static State begin(const Scenario &scenario)
{
    static State first;
    memset(static_cast<void *>(&config), 0, sizeof config);
    memset(static_cast<void *>(&first), 0, sizeof first);
    config.mutexes = 1;
    for (; config.threads < THREADS && scenario.threads[config.threads]; config.threads++) {
        int n = 0;
        for (const char *p = scenario.threads[config.threads]; *p; p += 2, n++) {
            config.script[config.threads][n] = {op_of(p[0]), u8(p[1] - '0')};
            config.mutexes = p[1] == '1' ? 2 : config.mutexes;
        }
    }
    read_options(scenario.options);
    first.kills = u8(config.kills), first.reuses = u8(config.reuses);
    if (config.died)
        first.word[0] = OWNER_DIED, first.inconsistent[0] = 1;
    return first;
}

static void print_word(char name, u16 w)
{
    printf(" %c=%d%s%s%s%s.%d", name, w & OWNER, w & OWNER_DIED ? "D" : "", w & WAITERS ? "W" : "",
           w & UNUSABLE ? "U" : "", w & AWAKE ? "A" : "", w / TURN);
}
static void print_path(const std::vector<Frame> &path)
{
    for (const Frame &f : path) {
        const State &s = f.from.state;
        printf("  %d %-12s", f.from.t + 1, event_names[f.from.event]);
        for (int w = 0; w < 2 * config.mutexes; w++)
            print_word(w % 2 ? 's' : 'c', s.word[w]);
        printf(" k=%d%s", s.cond & COUNT, s.cond & WAITED ? "W" : "");
        for (int q = 0; q < QUEUES; q++)
            for (int i = 0; i < s.sleepers[q]; i++)
                printf(i ? ",%d" : " q%d:%d", i ? s.queue[q][i] + 1 : q, s.queue[q][i] + 1);
        for (int t = 0; t < config.threads; t++)
            printf(" | %s p%d", step_names[s.thread[t].at], s.thread[t].pending);
        printf("\n");
    }
}

// ---- Jobs, which several processes take in turn.
struct Job {
    const Scenario *scenario;
    const Mutant *mutant; // NULL: the protocol as it is
    bool refines;
};
struct Shared {
    std::atomic<int> next, passed, failed;
};
static bool wants_trace;

static bool run(const Job &job)
{
    enum { MOST = 400000000 };
    std::vector<Frame> path;
    mutation = job.mutant ? job.mutant->mutation : NO_MUTATION;
    broken.clear();
    State first = begin(*job.scenario);
    size_t states = search(first, MOST, path, job.refines ? refines : nullptr);
    bool expects = job.mutant && !job.mutant->is_harmless;
    bool good = states < MOST &&
                (expects ? !broken.empty() && broken.find(job.mutant->why) != std::string::npos : broken.empty());
    const char *name = job.mutant ? mutation_names[mutation] : job.refines ? "refines the machine" : "holds";
    printf("%-6s %-36s %-40s %9zu states%s%s\n", good ? "ok" : "FAILED", job.scenario->name, name, states,
           broken.empty() ? "" : ": ", broken.c_str());
    if (wants_trace && !broken.empty())
        print_path(path);
    fflush(stdout);
    return good;
}

static Job job_of(const Mutant &m)
{
    for (const Scenario &s : small)
        if (!strcmp(s.name, m.shown_by))
            return {&s, &m, false};
    for (const Scenario &s : refined)
        if (!strcmp(s.name, m.shown_by))
            return {&s, &m, true};
    fprintf(stderr, "model: no scenario named %s\n", m.shown_by);
    exit(2);
}
static bool is_wanted(const std::vector<std::string> &names, const char *a, const char *b)
{
    for (const std::string &n : names)
        if (n == a || n == b)
            return true;
    return names.empty();
}
static std::vector<Job> jobs_of(bool all, const std::vector<std::string> &names)
{
    std::vector<Job> jobs;
    int number = 0;
    for (const Scenario &s : scenarios)
        if ((all || number++ < QUICK_SCENARIOS) && is_wanted(names, s.name, "holds"))
            jobs.push_back({&s, nullptr, false});
    for (const Scenario &s : refined)
        if (is_wanted(names, s.name, "refines"))
            jobs.push_back({&s, nullptr, true});
    for (const Mutant &m : mutants)
        if (is_wanted(names, mutation_names[m.mutation], "mutations"))
            jobs.push_back(job_of(m));
    return jobs;
}
static void work(const std::vector<Job> &jobs, Shared *shared)
{
    for (int i; (i = shared->next++) < int(jobs.size());)
        (run(jobs[size_t(i)]) ? shared->passed : shared->failed)++;
}

int main(int argc, char **argv)
{
    bool all = false;
    int processes = 2, status;
    std::vector<std::string> names;
    for (int i = 1; i < argc; i++) {
        std::string a = argv[i];
        if (a == "--long")
            all = true;
        else if (a == "--trace")
            wants_trace = true;
        else if (a.compare(0, 7, "--jobs=") == 0)
            processes = atoi(argv[i] + 7);
        else
            names.push_back(a);
    }
    std::vector<Job> jobs = jobs_of(all, names);
    void *memory = mmap(nullptr, 4096, PROT_READ | PROT_WRITE, MAP_SHARED | MAP_ANONYMOUS, -1, 0);
    Shared *shared = new (memory) Shared();
    for (int i = 0; i < processes; i++)
        if (fork() == 0) {
            work(jobs, shared);
            _exit(0);
        }
    while (wait(&status) > 0)
        shared->failed += status ? 1 : 0;
    int done = shared->passed;
    printf("%d passed, %d failed\n", done, int(jobs.size()) - done);
    return done != int(jobs.size()) || jobs.empty();
}
