// Which datoms of a batch the tree does not hold: the library says the first of them, as often as it is asked for the rest.
#ifndef FLORIN_HELD_H
#define FLORIN_HELD_H

#include "batches.h"
#include "florinwick.hpp"

#include <vector>

namespace florin {

// Their indices, ascending. The batch's long values are on the reader's heap already. Throws Trouble where the library refuses to say: a page that cannot be read, a batch that is no batch.
std::vector<std::uint64_t> missing_of(const florinwick::Reader &reader, std::uint64_t root, const Batch &batch);

}  // namespace florin

#endif
