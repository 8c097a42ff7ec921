// Solves a linear or quadratic program of an MPS file with CGAL's exact solver, has CGAL check its answer, and prints the answer.
//     g++ -O2 -DNDEBUG -o with_cgal with_cgal.cc -lgmp -lmpfr
//     with_cgal whole|fractions FILE       as the numbers of the file are
#include <CGAL/Gmpq.h>
#include <CGAL/Gmpz.h>
#include <CGAL/QP_functions.h>
#include <CGAL/QP_models.h>
#include <fstream>
#include <iostream>
#include <string>

template <class Exact>
struct Answered {
    CGAL::Quadratic_program_solution<Exact> answer;
    bool good;
};

// CGAL has a call for each kind of program; the special ones are faster.
template <class Exact, class Program>
Answered<Exact> answered(Program& program) {
    Answered<Exact> out;
    if (program.is_linear() && program.is_nonnegative()) {
        out.answer = CGAL::solve_nonnegative_linear_program(program, Exact());
        out.good = out.answer.solves_nonnegative_linear_program(program);
    } else if (program.is_linear()) {
        out.answer = CGAL::solve_linear_program(program, Exact());
        out.good = out.answer.solves_linear_program(program);
    } else if (program.is_nonnegative()) {
        out.answer = CGAL::solve_nonnegative_quadratic_program(program, Exact());
        out.good = out.answer.solves_nonnegative_quadratic_program(program);
    } else {
        out.answer = CGAL::solve_quadratic_program(program, Exact());
        out.good = out.answer.solves_quadratic_program(program);
    }
    return out;
}

template <class Quotient>
CGAL::Gmpq fraction(const Quotient& value) {
    return CGAL::Gmpq(value.numerator()) / CGAL::Gmpq(value.denominator());
}

template <class Number, class Exact>
int solve(std::istream& file) {
    CGAL::Quadratic_program_from_mps<Number> program(file);
    if (!program.is_valid()) {
        std::cout << "refused " << program.get_error() << "\n";
        return 1;
    }
    Answered<Exact> out = answered<Exact>(program);
    if (!out.good) {
        std::cout << "wrong " << out.answer.get_error() << "\n";
        return 1;
    }
    if (out.answer.is_infeasible()) {
        std::cout << "infeasible\n";
    } else if (out.answer.is_unbounded()) {
        std::cout << "unbounded\n";
    } else {
        std::cout << "value " << fraction(out.answer.objective_value()) << "\n";
        int column = 0;
        for (auto x = out.answer.variable_values_begin(); x != out.answer.variable_values_end(); ++x, ++column) {
            if (x->numerator() != 0) std::cout << "point " << program.variable_name_by_index(column) << " " << fraction(*x) << "\n";
        }
    }
    return 0;
}

int main(int count, char** words) {
    if (count != 3) return 2;
    std::ifstream file(words[2]);
    return std::string(words[1]) == "whole" ? solve<int, CGAL::Gmpz>(file) : solve<CGAL::Gmpq, CGAL::Gmpq>(file);
}
