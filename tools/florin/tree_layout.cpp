#include "tree_layout.h"

#include "datom_text.h"

#include <algorithm>

namespace florin {

namespace {

const double kColumnGap = 92;
const double kCardGap = 16;
const double kStripGap = 5;
const double kGroupGap = 12;         // more between lines that have lines below them
const unsigned kFewPages = 7;        // a level of so many gets full cards in any case
const unsigned kManyRows = 90;       // one with more rows than these gets cards of one line
const unsigned kTooManyPages = 160;  // and one with more pages than these is not shown
const unsigned kLongRun = 15;        // so many datoms in a row are shown; of more the middle is left out
const unsigned kEndOfRun = 6;        // and so many at each end of it stay

double gap_before(const Card &card) {
    if (card.style == Style::Full) return kCardGap;
    return card.links.empty() ? kStripGap : kGroupGap;
}

double height_of(const Card &card) {
    if (card.style == Style::Strip) return Measure::strip;
    return Measure::head + 2 * Measure::inset + Measure::row * static_cast<double>(std::max<std::size_t>(card.rows.size(), 1));
}

// Where the link of the child before datom `at` leaves: above its row, and for the last child below the last row.
double anchor(const Card &card, unsigned at) {
    if (card.style == Style::Strip) return Measure::strip / 2;
    double y = Measure::head + Measure::inset;
    for (const Row &row : card.rows) {
        if (row.skipped > 0 && at < row.at + row.skipped) return y + Measure::row / 2;
        if (row.skipped == 0 && at <= row.at) return y;
        y += Measure::row;
    }
    return y;
}

void add_run(std::vector<Row> &rows, unsigned from, unsigned length) {
    const bool is_long = length > kLongRun;
    for (unsigned i = 0; i < length; ++i) {
        if (is_long && i == kEndOfRun) {
            rows.push_back({from + i, length - 2 * kEndOfRun});
            i = length - kEndOfRun;
        }
        rows.push_back({from + i, 0});
    }
}

}  // namespace

void Widths::take(const florinwick::Datom &datom, const florinwick::HeapView &heap) {
    entity = std::max(entity, std::to_string(datom.entity).size());
    attribute = std::max(attribute, std::to_string(datom.attribute).size());
    value = std::max(value, short_value_text(datom.value, heap, Measure::value).size());
    transaction = std::max(transaction, std::to_string(datom.transaction()).size());
}

double Widths::card() const {
    const double transaction_end = value_start() + Measure::character * static_cast<double>(value + transaction + 2);
    return std::max(transaction_end + 2 * Measure::character + Measure::pad, 150.0);
}

Layout::Layout(const Subject &subject, const Shape &shape) : subject_(subject), shape_(shape) {
    const auto root = subject.page(subject.root);
    if (!root) return;
    capacity_ = root->capacity();
    styles_.assign(root->level() + 1, Style::Hidden);
    choose_styles();
    build(*root);
    set_columns();
    place(0, Measure::top + 34);
}

void Layout::choose_styles() {
    for (unsigned level = levels(); level-- > 0 && levels() - level <= subject_.levels;) {
        const std::uint64_t pages = shape_.pages[level], rows = pages * std::min(capacity_, kLongRun) * 2 / 3;
        if (pages > kTooManyPages) return;
        styles_[level] = pages > kFewPages && rows > kManyRows ? Style::Strip : Style::Full;
    }
}

// The card of a page and those below it; gives back its place among the cards.
std::size_t Layout::build(const PageView &page) {
    const std::size_t at = cards_.size();
    cards_.push_back({page, styles_[page.level()], {}, {}, {}});
    if (cards_[at].style == Style::Full) choose_rows(cards_[at]);
    for (unsigned i = 0; i < page.count(); ++i) widths_.take(page.datom(i), subject_.reader.heap());
    for (unsigned i = 0; i <= page.count(); ++i) {
        if (!page.has_child(i)) continue;
        const auto child = subject_.child(page, i);
        const double y = anchor(cards_[at], i);
        // In a damaged store one page may be a child many times over.
        if (child && shows_children(page) && cards_.size() < FLORINWICK_LEVELS * kTooManyPages) {
            const std::size_t below = build(*child);
            cards_[at].links.push_back({y, below});
        } else {
            cards_[at].stubs.push_back(y);
        }
    }
    return at;
}

// All datoms, unless there are many in a row behind which no card is linked.
void Layout::choose_rows(Card &card) const {
    const PageView &page = card.page;
    const bool linked = shows_children(page);
    unsigned from = 0;
    for (unsigned i = 0; i <= page.count(); ++i) {
        const bool ends_run = i == page.count() || (linked && page.has_child(i));
        if (!ends_run) continue;
        add_run(card.rows, from, i - from);
        if (i < page.count()) card.rows.push_back({i, 0});
        from = i + 1;
    }
}

double Layout::cell() const { return std::clamp(220.0 / capacity_, 2.0, 9.0); }

double Layout::cells_at() const {
    return 14 + Measure::character * static_cast<double>(5 + std::to_string(subject_.reader.page_count()).size());
}

double Layout::range_at() const { return cells_at() + cell() * capacity_ + 10; }

double Layout::width_of(Style style) const {
    if (style == Style::Full) return widths_.card();
    const std::size_t word = subject_.reader.order() == florinwick::Order::Eavt ? widths_.entity : widths_.attribute;
    return range_at() + Measure::character * static_cast<double>(2 * word + 3) + Measure::pad;
}

void Layout::set_columns() {
    double x = Measure::margin + 46;
    columns_.assign(levels(), 0);
    for (unsigned level = levels(); level-- > 0 && styles_[level] != Style::Hidden;) {
        columns_[level] = x;
        right_ = x + width_of(styles_[level]);
        // Many links need a wider way, or they run too steep to be followed.
        x = right_ + kColumnGap + (level > 0 ? std::min(static_cast<double>(shape_.pages[level - 1]), 110.0) : 0);
    }
    for (Card &card : cards_) {
        card.x = columns_[card.page.level()];
        card.width = width_of(card.style);
        card.height = height_of(card);
    }
}

// Puts a card beside the middle of those below it, all from `top` on; gives back where they end.
double Layout::place(std::size_t at, double top) {
    double end = top;
    for (const Link &link : cards_[at].links) {
        if (end > top) end += gap_before(cards_[link.card]);
        end = place(link.card, end);
    }
    Card &card = cards_[at];
    const double missing = card.height - (end - top);
    if (missing > 0) {
        for (const Link &link : card.links) lower(link.card, missing / 2);
        end = top + card.height;
    }
    card.y = (top + end - card.height) / 2;
    bottom_ = std::max(bottom_, end);
    return end;
}

void Layout::lower(std::size_t at, double by) {
    cards_[at].y += by;
    for (const Link &link : cards_[at].links) lower(link.card, by);
}

}  // namespace florin
