// Where each page of a tree stands in its picture: the root at the left, each level a column, the datoms of the leaves in order from
// top to bottom.
#ifndef FLORIN_TREE_LAYOUT_H
#define FLORIN_TREE_LAYOUT_H

#include "draw.h"

#include <vector>

namespace florin {

// Measures of the picture, in its own units.
struct Measure {
    static constexpr double character = 7;      // width, in the rows
    static constexpr double row = 17;           // height
    static constexpr double head = 22;          // of a card
    static constexpr double inset = 5;          // between head and rows
    static constexpr double pad = 8;
    static constexpr double strip = 20;         // height of a card that has one line only
    static constexpr double margin = 36;
    static constexpr std::size_t value = 30;    // characters that are shown of one
    static constexpr double top = 154;          // where the columns begin
};

// A page is shown with a row for each datom, or as one line, or not at all.
enum class Style { Full, Strip, Hidden };

struct Row {
    unsigned at = 0;        // the datom
    unsigned skipped = 0;   // or how many are left out from it on
};

struct Link {
    double y;               // where it leaves, from the top of its card
    std::size_t card;       // where it goes
};

struct Card {
    PageView page;
    Style style;
    std::vector<Row> rows;
    std::vector<Link> links;
    std::vector<double> stubs;   // children that are not shown, by where their links would leave
    double x = 0, y = 0, width = 0, height = 0;

    // Where links arrive: the middle of its head.
    double entrance() const { return y + (style == Style::Full ? Measure::head : Measure::strip) / 2; }
};

// How wide each word of a datom gets, so that all cards have the same columns.
struct Widths {
    std::size_t entity = 1, attribute = 1, value = 1, transaction = 1;

    void take(const florinwick::Datom &datom, const florinwick::HeapView &heap);
    double entity_end() const { return Measure::pad + 8 + Measure::character * static_cast<double>(entity); }
    double attribute_end() const { return entity_end() + Measure::character * static_cast<double>(attribute + 2); }
    double value_start() const { return attribute_end() + 2 * Measure::character; }
    double card() const;
};

class Layout {
public:
    Layout(const Subject &subject, const Shape &shape);

    // The root's card is the first; there is none if the root cannot be shown.
    const std::vector<Card> &cards() const { return cards_; }
    const Widths &widths() const { return widths_; }
    unsigned levels() const { return static_cast<unsigned>(styles_.size()); }
    Style style(unsigned level) const { return styles_[level]; }
    double column(unsigned level) const { return columns_[level]; }
    double width_of(Style style) const;
    double right() const { return right_; }
    double bottom() const { return bottom_; }

    // Within a card of one line: the cells, and behind them from which entity to which, or attribute where the order begins with that.
    double cell() const;
    double cells_at() const;
    double range_at() const;

private:
    void choose_styles();
    bool shows_children(const PageView &page) const { return page.level() > 0 && styles_[page.level() - 1] != Style::Hidden; }
    std::size_t build(const PageView &page);
    void choose_rows(Card &card) const;
    void set_columns();
    double place(std::size_t at, double top);
    void lower(std::size_t at, double by);

    const Subject &subject_;
    const Shape &shape_;
    unsigned capacity_ = 1;
    std::vector<Style> styles_;      // by level
    std::vector<double> columns_;    // by level
    std::vector<Card> cards_;
    Widths widths_;
    double right_ = Measure::margin;
    double bottom_ = Measure::top;
};

}  // namespace florin

#endif
