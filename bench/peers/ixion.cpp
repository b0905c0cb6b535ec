// Reads a CSV file without quotes round commas of formulas into a model of libixion, computes all its formulas on one thread, and
// prints the last formula's value.
#include <ixion/address.hpp>
#include <ixion/formula.hpp>
#include <ixion/formula_name_resolver.hpp>
#include <ixion/model_context.hpp>

#include <algorithm>
#include <cstdio>
#include <cstdlib>
#include <fstream>
#include <iterator>
#include <string>
#include <string_view>
#include <vector>

// The fields of a line: a field in quotes is taken without them, and has no quotes inside.
static std::vector<std::string_view> fields_of(std::string_view line) {
    std::vector<std::string_view> fields;
    std::size_t at = 0;
    while (at <= line.size()) {
        bool quoted = at < line.size() && line[at] == '"';
        std::size_t start = at + quoted;
        std::size_t end = std::min(line.find(quoted ? '"' : ',', start), line.size());
        fields.push_back(line.substr(start, end - start));
        at = std::min(line.find(',', end), line.size()) + 1;
    }
    return fields;
}

int main(int argc, char** argv) {
    if (argc < 2) return 2;
    std::ifstream file(argv[1]);
    std::string text((std::istreambuf_iterator<char>(file)), std::istreambuf_iterator<char>());

    ixion::model_context model({1048576, 64});
    model.append_sheet("sheet");
    auto resolver = ixion::formula_name_resolver::get(ixion::formula_name_resolver_t::excel_a1, &model);
    ixion::abs_range_set_t formulas;
    ixion::abs_address_t last;
    ixion::row_t row = 0;
    for (std::size_t at = 0; at < text.size(); ++row) {
        std::size_t end = std::min(text.find('\n', at), text.size());
        ixion::col_t col = 0;
        for (auto field : fields_of(std::string_view(text).substr(at, end - at))) {
            ixion::abs_address_t cell(0, row, col++);
            if (field.empty()) continue;
            if (field[0] == '=') {
                auto tokens = ixion::parse_formula_string(model, cell, *resolver, field.substr(1));
                auto* formula = model.set_formula_cell(cell, std::move(tokens));
                ixion::register_formula_cell(model, cell, formula);
                formulas.insert(cell);
                last = cell;
                continue;
            }
            char* rest = nullptr;
            std::string word(field);
            double number = std::strtod(word.c_str(), &rest);
            if (*rest) model.set_string_cell(cell, field);
            else model.set_numeric_cell(cell, number);
        }
        at = end + 1;
    }
    auto sorted = ixion::query_and_sort_dirty_cells(model, {}, &formulas);
    ixion::calculate_sorted_cells(model, sorted, 0);
    std::printf("%.0f\n", model.get_numeric_value(last));
}
