// The datoms of a batch that is in, found again in the store. What a tree holds is asked of the library.
//
// A batch is what its root lists and the root that it was inserted at does not. To list both trees for every batch would read the store
// as often as it has batches; the pages that the batch wrote are enough:
//   - Each datom of the batch stands in one of them. The tree of the new root is made of these pages and of pages of the tree before, and
//     whatever stands in the latter is in the tree before, so no datom of the batch is there.
//   - The other datoms in them come from the tree before, since an insert reads nothing else: that tree holds them, and they are left out.
//   - A datom that stands in several of them is taken once. So far none does, but nothing promises that an insert writes no page which it
//     replaces before it ends.
// The receipt has the number of the datoms and their checksum, so a mistake here is told and makes no wrong dump.
#ifndef FLORIN_BATCH_OF_H
#define FLORIN_BATCH_OF_H

#include "batches.h"
#include "store_file.h"

namespace florin {

// Ascending in the store's order, with the receipt's place in florin roots as its number. Throws Trouble where the pages are not as they were written, or the
// datoms are not those that the receipt speaks of.
Batch batch_of(const StoreFile &store, const Receipt &receipt, std::uint64_t number);

}  // namespace florin

#endif
