// A store of florin 0.1, in format 1, read whole so that one of today's format can be made of it.
//
//     byte 0      head slot 0: the mark, seven words, their checksum
//          4096   head slot 1
//          8192   pages
//          end    receipts of 64 bytes that grow down: the first stands last
//
// Its checksums are FNV-1a over 64 bits. It has none of its pages and none of its datoms.
#ifndef FLORIN_OLD_STORE_H
#define FLORIN_OLD_STORE_H

#include "store_format.h"

#include <string>
#include <vector>

namespace florin {

struct OldStore {
    std::uint64_t page_size = 0, page_count = 0, root = florinwick::none;
    std::vector<std::uint8_t> pages;
    std::vector<Receipt> receipts;
};

// Throws Trouble where the file is no such store, is damaged, or is being written to.
OldStore read_old_store(const std::string &path);

}  // namespace florin

#endif
