// Runs `desk` on a rule book and a script in a working folder, and keeps the cases that failed.
#pragma once
#include <fcntl.h>
#include <signal.h>
#include <sys/wait.h>
#include <unistd.h>

#include <algorithm>
#include <cstddef>
#include <cstdint>
#include <filesystem>
#include <fstream>
#include <iterator>
#include <optional>
#include <stdexcept>
#include <string>

#include "session.hpp"

struct Case {
    std::string shape;
    uint64_t seed = 0;
    std::optional<std::string> book;  // absent: there is no file
    std::string script;
    size_t piece = 0;  // the script comes through a pipe, this many bytes at a time; 0: it is a file
};

// The file is a new one: an old one that is cut short and filled again goes to the disk at once on ext4.
inline void write_file(const std::filesystem::path& path, const std::string& bytes) {
    std::filesystem::remove(path);
    std::ofstream file(path, std::ios::binary);
    file << bytes;
    if (!file.flush()) throw std::runtime_error("cannot write " + path.string());
}

inline std::string read_file(const std::filesystem::path& path) {
    std::ifstream file(path, std::ios::binary);
    return std::string(std::istreambuf_iterator<char>(file), {});
}

class Desk {
public:
    // Works in folder/work and keeps failed cases in folder/failed.
    Desk(const std::filesystem::path& program, const std::filesystem::path& folder)
        : program(std::filesystem::absolute(program)), work(std::filesystem::absolute(folder) / "work"),
          failed(std::filesystem::absolute(folder) / "failed") {
        std::filesystem::create_directories(work);
        std::filesystem::remove_all(failed);
        signal(SIGPIPE, SIG_IGN);
    }

    // What `desk` prints. It must end by itself, with exit code 0.
    std::string run(const Case& example) const {
        place(work, example);
        write_file(work / "output", "");
        int ends[2] = {-1, -1};
        if (example.piece != 0 && pipe(ends) != 0) throw std::runtime_error("no pipe");
        pid_t child = fork();
        if (child < 0) throw std::runtime_error("no process");
        if (child == 0) become_desk(ends);
        if (example.piece != 0) feed(ends, example);
        int status = 0;
        if (waitpid(child, &status, 0) != child) throw std::runtime_error("no end of a process");
        expect(!WIFSIGNALED(status), "ended by signal " + std::to_string(WTERMSIG(status)));
        expect(WEXITSTATUS(status) == 0, "exit code " + std::to_string(WEXITSTATUS(status)));
        return read_file(work / "output");
    }

    // The folder of a failed case: there, `desk < script` runs it again.
    std::filesystem::path keep(const Case& example) const {
        std::filesystem::path folder = failed / (example.shape + "-" + std::to_string(example.seed));
        std::filesystem::create_directories(folder);
        place(folder, example);
        return folder;
    }

private:
    static constexpr unsigned SECONDS = 240;  // the longest that `desk` may run

    static void place(const std::filesystem::path& folder, const Case& example) {
        if (example.book)
            write_file(folder / "tariff.cnf", *example.book);
        else
            std::filesystem::remove(folder / "tariff.cnf");
        write_file(folder / "script", example.script);
    }

    [[noreturn]] void become_desk(const int ends[2]) const {
        signal(SIGPIPE, SIG_DFL);
        if (chdir(work.c_str()) != 0) _exit(126);
        int input = ends[0] >= 0 ? ends[0] : open("script", O_RDONLY);
        int output = open("output", O_WRONLY);
        if (dup2(input, STDIN_FILENO) < 0 || dup2(output, STDOUT_FILENO) < 0) _exit(126);
        if (ends[1] >= 0) close(ends[1]);
        alarm(SECONDS);
        execl(program.c_str(), program.c_str(), static_cast<char*>(nullptr));
        _exit(127);
    }

    // A program that has ended reads no more.
    static void feed(const int ends[2], const Case& example) {
        close(ends[0]);
        size_t at = 0;
        while (at < example.script.size()) {
            ssize_t n = write(ends[1], example.script.data() + at, std::min(example.piece, example.script.size() - at));
            if (n <= 0) break;
            at += static_cast<size_t>(n);
        }
        close(ends[1]);
    }

    std::filesystem::path program, work, failed;
};
