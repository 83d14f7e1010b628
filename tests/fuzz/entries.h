// The entries of libflorinwick.a, as the header for callers declares them, and document 02's numbers of what a page can have broken and of the orders.
#pragma once

#include "florinwick.h"

constexpr uint64_t NONE = FLORINWICK_NONE;

// As document 02 has them, by themselves: the header's own enum is under test too. The first seven are the reader's; 0 is none.
enum Fault : uint64_t {
    Level = 1, Count, Form, Order, LeafChild, LastChild, ChildId, Missing, WrongLevel, EqualDatoms, OutOfBounds, PastCount, TooHigh,
    NothingLeft
};

constexpr uint64_t NO_FAULT = 0;

// So with the orders. Any other number is none.
enum Index : uint64_t { Eavt = 0, Aevt, Avet };

constexpr uint64_t ORDERS = 3;
