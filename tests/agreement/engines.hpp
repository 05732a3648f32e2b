// The engines by which sessions are made: the library and the written run, which answers in numbers, too, as the C calls do.
#pragma once
#include <cstdint>
#include <functional>
#include <memory>

#include "../counts/lookups.hpp"
#include "../support/library.hpp"

class Engine {
public:
    virtual ~Engine() = default;
    virtual uint64_t open() = 0;
    virtual uint64_t take(const Call& call) = 0;
    virtual uint64_t lookup(uint32_t variable) const = 0;
    virtual Lookups lookups() const = 0;
    virtual bool lookups_due(Random& random) const = 0;
    virtual bool in_conflict() const = 0;
};

// An engine for a session on a formula; what the library is lent is random.
using Maker = std::function<std::unique_ptr<Engine>(Random&, const Formula& written)>;

class ByLibrary : public Engine {
public:
    ByLibrary(Random& random, const Formula& written) : library(random, dimacs(written)) {}

    uint64_t open() override { return library.open(); }
    uint64_t take(const Call& call) override { return library.take(call); }
    uint64_t lookup(uint32_t variable) const override { return library.lookup(variable); }
    Lookups lookups() const override { return library.lookups(); }
    bool lookups_due(Random& random) const override { return library.lookups_due(random, 300000); }
    bool in_conflict() const override { return library.conflict() != 0; }

private:
    Library library;
};

// What a wrong engine makes of a run behind a call, and of the answer.
using Damage = uint64_t (*)(Run&, const Call&, uint64_t answer);

inline uint64_t no_damage(Run&, const Call&, uint64_t answer) { return answer; }

class ByRun : public Engine {
public:
    ByRun(const Formula& written, Fault fault, Damage damage) : formula(as_read(written)), run(formula, fault), damage(damage) {}

    uint64_t open() override { return c_answer(run.open()); }
    uint64_t take(const Call& call) override { return damage(run, call, answer_call(run, call)); }
    uint64_t lookup(uint32_t variable) const override { return lookups()[variable]; }
    Lookups lookups() const override { return lookups_of(run); }
    bool lookups_due(Random&) const override { return true; }
    bool in_conflict() const override { return run.conflict != 0; }

private:
    Formula formula;
    Run run;
    Damage damage;
};

inline std::unique_ptr<Engine> by_library(Random& random, const Formula& written) { return std::make_unique<ByLibrary>(random, written); }

inline Maker by_run(Fault fault, Damage damage = no_damage) {
    return [=](Random&, const Formula& written) { return std::make_unique<ByRun>(written, fault, damage); };
}
