// The picture: a page is a card with a row for each datom; a link leaves its card between the two datoms that its child lies between.
// Cards of the last batch are coloured, those that it shares with older roots are not, so that one sees what a batch writes and what it
// keeps.
#include "draw.h"

#include "datom_text.h"
#include "order_text.h"
#include "tree_layout.h"

#include <algorithm>

namespace florin {

using florinwick::Datom;

namespace {

const char kStyle[] = R"(<style>
text { font-family: 'DejaVu Sans', 'Segoe UI', 'Helvetica Neue', Arial, sans-serif; fill: #1f2a37 }
.mono { font-family: 'DejaVu Sans Mono', Menlo, Consolas, monospace; font-size: 11.6px }
.title { font-size: 25px; font-weight: bold } .sub { font-size: 13px; fill: #5b6776 } .key { font-size: 11.5px; fill: #5b6776 }
.level { font-size: 12px; fill: #8a8577; letter-spacing: .6px } .soft { fill: #8d97a5 } .end { text-anchor: end }
.paper { fill: #faf8f3 } .column { fill: #f2eee5 } .card { fill: #ffffff; stroke: #c6ced9 } .new { stroke: #0f766e; stroke-width: 1.6 }
.bar { fill: #e9edf2 } .newbar { fill: #0f766e } .on { fill: #ffffff; font-weight: bold } .off { fill: #4b5765; font-weight: bold }
.from { font-size: 10.5px } .link { fill: none; stroke: #b7c0cc; stroke-width: 1.5 } .newlink { stroke: #0f766e; stroke-width: 2 }
.stub { fill: #b7c0cc } .mid { fill: #fdf0d5 } .midbar { fill: #dd8a0b } .pend { fill: #efe7fd } .pendbar { fill: #7c3aed } .leafbar { fill: #9fb0c3 }
.plus { fill: #0f766e; font-weight: bold } .minus { fill: #c2410c; font-weight: bold }
</style>
)";
const char kMinus[] = "\xe2\x88\x92";
const char kDash[] = " \xe2\x80\x93 ";
const char kDots[] = "\xe2\x8b\xaf ";

// Bytes that are no printable ASCII do not come here: values are shown with \xNN, and the store's name is cleaned.
std::string escaped(const std::string &text) {
    std::string out;
    for (char c : text) {
        switch (c) {
            case '<': out += "&lt;"; break;
            case '>': out += "&gt;"; break;
            case '&': out += "&amp;"; break;
            case '"': out += "&quot;"; break;
            default: out += c;
        }
    }
    return out;
}

std::string printable(std::string text) {
    std::replace_if(text.begin(), text.end(), [](char c) { return c < ' ' || c > '~'; }, '?');
    return text;
}

std::string fixed(double number) {
    char text[32];
    std::snprintf(text, sizeof text, "%.1f", number);
    return text;
}

// The elements of the picture, one behind the other.
class Canvas {
public:
    const std::string &elements() const { return out_; }

    void rect(const std::string &kind, double x, double y, double width, double height, double round = 0) {
        out_ += "<rect class=\"" + kind + "\"" + attribute("x", x) + attribute("y", y) + attribute("width", width) + attribute("height", height);
        if (round > 0) out_ += attribute("rx", round);
        out_ += "/>\n";
    }
    void text(const std::string &kind, double x, double y, const std::string &content) {
        out_ += "<text class=\"" + kind + "\"" + attribute("x", x) + attribute("y", y) + ">" + escaped(content) + "</text>\n";
    }
    void circle(const std::string &kind, double x, double y, double radius) {
        out_ += "<circle class=\"" + kind + "\"" + attribute("cx", x) + attribute("cy", y) + attribute("r", radius) + "/>\n";
    }
    void line(const std::string &kind, double x, double y, double to) { path(kind, "M" + fixed(x) + " " + fixed(y) + " H" + fixed(to)); }
    // Leaves and arrives level.
    void curve(const std::string &kind, double x, double y, double to_x, double to_y) {
        const double bend = (to_x - x) * 0.55;
        path(kind, "M" + fixed(x) + " " + fixed(y) + " C" + fixed(x + bend) + " " + fixed(y) + " " + fixed(to_x - bend) + " " + fixed(to_y) + " " +
                       fixed(to_x) + " " + fixed(to_y));
    }
    // A rectangle whose upper corners are round.
    void tab(const std::string &kind, double x, double y, double width, double height, double round) {
        const std::string arc = " a" + fixed(round) + " " + fixed(round) + " 0 0 1 ";
        path(kind, "M" + fixed(x) + " " + fixed(y + height) + " v" + fixed(round - height) + arc + fixed(round) + " " + fixed(-round) + " h" +
                       fixed(width - 2 * round) + arc + fixed(round) + " " + fixed(round) + " v" + fixed(height - round) + " z");
    }

private:
    static std::string attribute(const char *name, double number) { return std::string(" ") + name + "=\"" + fixed(number) + "\""; }
    void path(const std::string &kind, const std::string &way) { out_ += "<path class=\"" + kind + "\" d=\"" + way + "\"/>\n"; }

    std::string out_;
};

class Picture {
public:
    explicit Picture(const Subject &subject)
        : subject_(subject), shape_(Shape::of(subject.reader, subject.root)), layout_(subject, shape_), first_new_(first_new()) {}

    std::string draw() {
        const std::vector<Card> &cards = layout_.cards();
        const bool has_stubs = std::any_of(cards.begin(), cards.end(), [](const Card &card) { return !card.stubs.empty(); });
        const double width = std::max(layout_.right() + Measure::margin + (has_stubs ? 120 : 0), 900.0);
        const double height = layout_.bottom() + Measure::margin;
        canvas_.rect("paper", 0, 0, width, height);
        title();
        key();
        columns();
        for (const Card &card : cards) links(card);
        for (const Card &card : cards) {
            if (card.style == Style::Full) {
                full_card(card);
            } else {
                strip_card(card);
            }
        }
        if (!cards.empty()) root_mark(cards.front());
        const std::string size = fixed(width) + "\" height=\"" + fixed(height) + "\" viewBox=\"0 0 " + fixed(width) + " " + fixed(height);
        return "<svg xmlns=\"http://www.w3.org/2000/svg\" width=\"" + size + "\">\n<title>" + escaped(name()) + "</title>\n" + kStyle +
               canvas_.elements() + "</svg>\n";
    }

private:
    std::string name() const { return printable(subject_.name) + ", root " + page_text(subject_.root); }

    // The first page that the batch which led to this root wrote; all below it are older.
    std::uint64_t first_new() const {
        for (const Receipt &receipt : subject_.receipts) {
            if (receipt.root == subject_.root) return receipt.page_count - receipt.pages;
        }
        return florinwick::none;
    }
    bool is_new(const Card &card) const { return card.page.id() >= first_new_; }

    void title() {
        canvas_.text("title", Measure::margin, 52, name());
        canvas_.text("sub", Measure::margin, 77, summary());
    }

    std::string summary() const {
        if (subject_.root == florinwick::none) return "No datoms yet.";
        if (layout_.cards().empty()) return "This page cannot be read: run florin check.";
        std::string text = counted(shape_.datoms(), "datom") + ", " + grouped(shape_.pending) + " of them pending, in " +
                           counted(shape_.all_pages(), "page") + " of " + std::to_string(subject_.reader.page_size()) + " bytes.";
        if (const std::uint64_t batch = subject_.batch_of(subject_.root)) {
            const Receipt &receipt = subject_.receipts[batch - 1];
            text += " Batch " + std::to_string(batch) + " brought " + counted(receipt.datoms, "datom") + " and wrote " +
                    counted(receipt.pages, "page") + ".";
        }
        if (shape_.lost > 0) text += " " + counted(shape_.lost, "link") + " cannot be followed: run florin check.";
        return text;
    }

    void key() {
        double x = Measure::margin;
        swatch(x, "newbar", "newbar", "page of the last batch");
        swatch(x, "bar", "bar", "page kept");
        swatch(x, "midbar", "mid", "midpoint, between two children");
        swatch(x, "pendbar", "pend", "pending, on its way down");
        canvas_.text("key", Measure::margin, 133,
                     std::string("A row is a datom: entity, attribute, value, transaction, + for assert or ") + kMinus +
                         " for retract. The header says which batch wrote the page.");
    }

    void swatch(double &x, const std::string &bar, const std::string &fill, const std::string &text) {
        canvas_.rect(fill, x, 97, 22, 13, 2);
        canvas_.rect(bar, x, 97, 4, 13, 1.5);
        canvas_.text("key", x + 29, 108, text);
        x += 49 + 6.1 * static_cast<double>(text.size());
    }

    void columns() {
        for (unsigned level = layout_.levels(); level-- > 0 && layout_.style(level) != Style::Hidden;) {
            const double x = layout_.column(level), width = layout_.width_of(layout_.style(level));
            canvas_.rect("column", x - 12, Measure::top - 6, width + 24, layout_.bottom() - Measure::top + 22, 8);
            canvas_.text("level", x, Measure::top + 14, "level " + std::to_string(level));
            canvas_.text("level end", x + width, Measure::top + 14, counted(shape_.pages[level], "page"));
        }
    }

    void root_mark(const Card &root) {
        canvas_.line("link newlink", Measure::margin, root.entrance(), root.x);
        canvas_.circle("newbar", Measure::margin, root.entrance(), 5);
    }

    void links(const Card &card) {
        const double x = card.x + card.width;
        for (const Link &link : card.links) {
            const Card &to = layout_.cards()[link.card];
            canvas_.curve(is_new(to) ? "link newlink" : "link", x, card.y + link.y, to.x, to.entrance());
        }
        for (double stub : card.stubs) {
            canvas_.line("link", x, card.y + stub, x + 16);
            canvas_.circle("stub", x + 18, card.y + stub, 2.5);
        }
        if (!card.stubs.empty()) canvas_.text("key", x + 28, card.y + card.height / 2 + 4, counted(card.stubs.size(), "child page"));
    }

    void full_card(const Card &card) {
        const bool fresh = is_new(card);
        canvas_.rect(fresh ? "card new" : "card", card.x, card.y, card.width, card.height, 5);
        canvas_.tab(fresh ? "newbar" : "bar", card.x, card.y, card.width, Measure::head, 5);
        canvas_.text(fresh ? "mono on" : "mono off", card.x + Measure::pad, card.y + 15.5, "page " + page_text(card.page.id()));
        if (const std::uint64_t batch = subject_.batch_of(card.page.id())) {
            const double end = card.x + card.width - Measure::pad;
            canvas_.text(fresh ? "from end on" : "from end soft", end, card.y + 15, "batch " + std::to_string(batch));
        }
        double y = card.y + Measure::head + Measure::inset;
        if (card.rows.empty()) canvas_.text("key", card.x + Measure::pad, y + 12.5, "no datoms");
        for (const Row &row : card.rows) {
            if (row.skipped > 0) {
                canvas_.text("key", card.x + layout_.widths().entity_end(), y + 12, kDots + std::to_string(row.skipped) + " more");
            } else {
                datom_row(card, row.at, y);
            }
            y += Measure::row;
        }
    }

    static std::string kind_of(const PageView &page, unsigned at) {
        if (page.level() == 0) return "leaf";
        return page.is_pending(at) ? "pend" : "mid";
    }

    void datom_row(const Card &card, unsigned at, double y) {
        const Datom datom = card.page.datom(at);
        const std::string kind = kind_of(card.page, at);
        const Widths &widths = layout_.widths();
        const double base = y + 12.5, end = card.x + card.width - Measure::pad;
        if (card.page.level() > 0) canvas_.rect(kind, card.x + 1, y + 0.5, card.width - 2, Measure::row - 1);
        canvas_.rect(kind + "bar", card.x + 1, y + 0.5, 4, Measure::row - 1);
        canvas_.text("mono end", card.x + widths.entity_end(), base, std::to_string(datom.entity));
        canvas_.text("mono soft end", card.x + widths.attribute_end(), base, std::to_string(datom.attribute));
        canvas_.text("mono", card.x + widths.value_start(), base, short_value_text(datom.value, subject_.reader.heap(), Measure::value));
        canvas_.text("mono soft end", end - 2 * Measure::character, base, std::to_string(datom.transaction()));
        canvas_.text(datom.is_assert() ? "mono end plus" : "mono end minus", end, base, datom.is_assert() ? "+" : kMinus);
    }

    // One line: the page, a cell for each datom, and by what the store's order begins with, from the first to the last.
    void strip_card(const Card &card) {
        const bool fresh = is_new(card);
        const PageView &page = card.page;
        const double cell = layout_.cell(), base = card.y + 14;
        canvas_.rect(fresh ? "card new" : "card", card.x, card.y, card.width, card.height, 4);
        canvas_.text(fresh ? "mono plus" : "mono off", card.x + Measure::pad, base, "page " + page_text(page.id()));
        for (unsigned i = 0; i < page.capacity(); ++i) {
            const std::string kind = i < page.count() ? kind_of(page, i) + "bar" : "bar";
            canvas_.rect(kind, card.x + layout_.cells_at() + cell * i, card.y + 5, cell > 3 ? cell - 1 : cell, 10);
        }
        if (page.count() == 0) return;
        const auto word = [&](unsigned at) { return first_word(page.datom(at), subject_.reader.order()); };
        const std::uint64_t first = word(0), last = word(page.count() - 1);
        canvas_.text("mono soft", card.x + layout_.range_at(), base, std::to_string(first) + kDash + std::to_string(last));
    }

    const Subject &subject_;
    Shape shape_;
    Layout layout_;
    std::uint64_t first_new_;
    Canvas canvas_;
};

}  // namespace

std::string draw_svg(const Subject &subject) { return Picture(subject).draw(); }

}  // namespace florin
