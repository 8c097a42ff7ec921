// Solves a linear or mixed integer program of an MPS file with the exact solver of the Parma Polyhedra Library, and prints the answer.
//     g++ -O2 -o with_ppl with_ppl.cc -lppl -lgmpxx -lgmp
//     with_ppl FILE
// It reads what bench/programs.py and bench/transport write: columns of at least 0, no ranges, UP bounds alone, whole numbers and decimals.
#include <fstream>
#include <iostream>
#include <map>
#include <ppl.hh>
#include <sstream>
#include <string>
#include <vector>

using namespace Parma_Polyhedra_Library;

struct Line {
    mpq_class right = 0;
    std::map<dimension_type, mpq_class> entries;
    char kind = 'N';
};

struct Read {
    std::vector<std::string> order, columns;
    std::map<std::string, Line> rows;
    std::map<std::string, dimension_type> places;
    std::map<dimension_type, mpq_class> high;
    Variables_Set marked;
};

mpq_class number(const std::string& text) {
    const size_t point = text.find('.');
    if (point == std::string::npos) return mpq_class(text, 10);
    mpz_class whole(text.substr(0, point) + text.substr(point + 1), 10), scale;
    mpz_ui_pow_ui(scale.get_mpz_t(), 10, text.size() - point - 1);
    mpq_class value(whole, scale);
    value.canonicalize();
    return value;
}

dimension_type column(Read& read, const std::string& name, bool marked) {
    const auto [place, is_new] = read.places.insert({name, read.columns.size()});
    if (is_new) {
        read.columns.push_back(name);
        if (marked) read.marked.insert(Variable(place->second));
    }
    return place->second;
}

void take(Read& read, const std::string& section, const std::vector<std::string>& fields, bool& marked) {
    if (section == "ROWS") {
        read.rows[fields[1]].kind = fields[0][0];
        read.order.push_back(fields[1]);
    } else if (section == "COLUMNS" && fields[1] == "'MARKER'") {
        marked = fields[2] == "'INTORG'";
    } else if (section == "COLUMNS") {
        const dimension_type j = column(read, fields[0], marked);
        for (size_t k = 1; k + 1 < fields.size(); k += 2) read.rows[fields[k]].entries[j] = number(fields[k + 1]);
    } else if (section == "RHS") {
        for (size_t k = 1; k + 1 < fields.size(); k += 2) read.rows[fields[k]].right = number(fields[k + 1]);
    } else if (section == "BOUNDS" && fields[0] == "UP") {
        read.high[read.places.at(fields[2])] = number(fields[3]);
    } else {
        throw std::runtime_error("not read: " + section);
    }
}

Read read_file(std::istream& file) {
    Read read;
    std::string text, section;
    bool marked = false;
    while (std::getline(file, text)) {
        std::istringstream words(text);
        std::vector<std::string> fields;
        for (std::string field; words >> field;) fields.push_back(field);
        if (fields.empty() || text[0] == '*') continue;
        if (text[0] != ' ') {
            section = fields[0];
        } else {
            take(read, section, fields, marked);
        }
    }
    return read;
}

// The row's expression in whole numbers, and by how much it was multiplied.
std::pair<Linear_Expression, mpz_class> whole(const Line& line) {
    mpz_class scale = line.right.get_den();
    for (const auto& [j, value] : line.entries) scale = lcm(scale, value.get_den());
    Linear_Expression sum;
    for (const auto& [j, value] : line.entries) sum += mpz_class(value * scale) * Variable(j);
    return {sum, scale};
}

int main(int count, char** words) {
    if (count != 2) return 2;
    std::ifstream file(words[1]);
    const Read read = read_file(file);
    MIP_Problem problem(read.columns.size());
    for (dimension_type j = 0; j < read.columns.size(); ++j) problem.add_constraint(Variable(j) >= 0);
    for (const auto& [j, bound] : read.high) problem.add_constraint(bound.get_den() * Variable(j) <= bound.get_num());
    mpz_class cost_scale = 1;
    for (const auto& name : read.order) {
        const Line& line = read.rows.at(name);
        const auto [sum, scale] = whole(line);
        const mpz_class right(line.right * scale);
        if (line.kind == 'E') problem.add_constraint(sum == right);
        if (line.kind == 'L') problem.add_constraint(sum <= right);
        if (line.kind == 'G') problem.add_constraint(sum >= right);
        if (line.kind == 'N') problem.set_objective_function(sum), cost_scale = scale;
    }
    problem.set_optimization_mode(MINIMIZATION);
    problem.add_to_integer_space_dimensions(read.marked);
    switch (problem.solve()) {
    case UNFEASIBLE_MIP_PROBLEM: std::cout << "infeasible\n"; return 0;
    case UNBOUNDED_MIP_PROBLEM: std::cout << "unbounded\n"; return 0;
    case OPTIMIZED_MIP_PROBLEM: break;
    }
    mpz_class above, below;
    problem.optimal_value(above, below);
    mpq_class value(above, below * cost_scale);
    value.canonicalize();
    std::cout << "value " << value << "\n";
    const Generator& point = problem.optimizing_point();
    for (dimension_type j = 0; j < read.columns.size(); ++j) {
        mpq_class x(point.coefficient(Variable(j)), point.divisor());
        x.canonicalize();
        if (x != 0) std::cout << "point " << read.columns[j] << " " << x << "\n";
    }
    return 0;
}
