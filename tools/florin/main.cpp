// florin: stores of Florinwick in files, for the replication operator and the position clerk. All that it knows of trees it asks the
// library; here are files, words and pictures. The commands are in commands/.
#include "command_line.h"
#include "trouble.h"

#include <csignal>
#include <new>
#include <string>
#include <vector>

#include <unistd.h>

namespace florin {
namespace {

void run(const std::vector<std::string> &words, bool &json) {
    const Run chosen = read_command_line(words, json);
    if (!chosen) return;
    Output out(json);
    chosen(out);
    out.flush();
}

// A mapped file that another process cuts short, or a disk that fails, shows as this signal.
void on_bus_error(int) {
    const char text[] = "florin: System (74): the store cannot be read where it is mapped: it was cut short meanwhile, or the disk failed.\n"
                        "  next: look at the disk, then run florin check.\n";
    const ssize_t written = write(STDERR_FILENO, text, sizeof text - 1);
    static_cast<void>(written);
    _exit(kSystem);
}

}  // namespace
}  // namespace florin

int main(int count, char **words) {
    using namespace florin;
    std::signal(SIGXFSZ, SIG_IGN);   // a limit on file sizes is told by the call that meets it
    std::signal(SIGBUS, on_bus_error);
    bool json = false;
    for (int i = 1; i < count; ++i) json = json || std::string(words[i]) == "--json";   // for errors in the words themselves
    try {
        run({words + 1, words + count}, json);
        return kDone;
    } catch (const Trouble &trouble) {
        print(trouble, json);
        return trouble.status;
    } catch (const std::bad_alloc &) {
        print({kSystem, "System", "there is not enough memory.", "try again with more of it."}, json);
        return kSystem;
    }
}
