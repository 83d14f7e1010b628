#include "commands/command.h"

namespace florin {

Run define_create(Words &words);
Run define_insert(Words &words);
Run define_missing(Words &words);
Run define_list(Words &words);
Run define_count(Words &words);
Run define_roots(Words &words);
Run define_stat(Words &words);
Run define_check(Words &words);
Run define_page(Words &words);
Run define_tree(Words &words);
Run define_backup(Words &words);
Run define_dump(Words &words);
Run define_load(Words &words);
Run define_upgrade(Words &words);
Run define_man(Words &words);
Run define_completion(Words &words);

const std::vector<Command> &commands() {
    static const std::vector<Command> all = {
        {"create", "makes a store, empty or of one batch in any order", define_create},
        {"insert", "inserts batches, each whole or not at all, and prints a receipt for each", define_insert},
        {"missing", "prints the part of an input that the tree does not hold", define_missing},
        {"list", "lists datoms between two bounds", define_list},
        {"count", "counts datoms between two bounds", define_count},
        {"roots", "lists the roots so far, one for each batch", define_roots},
        {"stat", "shows pages, room, height and fill", define_stat},
        {"check", "tests every page of a tree, or of the trees of all roots", define_check},
        {"page", "shows what stands in a page", define_page},
        {"tree", "shows a tree as text, or draws it", define_tree},
        {"backup", "makes a whole copy of a store, also while it is written to", define_backup},
        {"dump", "writes a store as text, with all batches and receipts", define_dump},
        {"load", "makes a store from what florin dump wrote", define_load},
        {"upgrade", "makes a store of today's format from one of florin 0.1", define_upgrade},
        {"man", "prints the manual page", define_man},
        {"completion", "prints what makes a shell complete florin's words", define_completion},
    };
    return all;
}

}  // namespace florin
