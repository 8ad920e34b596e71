// How to call the library from C++: document 01's case C15 (docs/RULES.md), a square at half height of the unit cube closed both ways.
//
// Room is asked for here: a call that is lent too little says how much it needs (refusals 7 and 12), and is made again; close_cube.c computes
// it instead. Everything that the calls write is printed, a line each, for a look or for a script (docs/picture.py draws it). What C15 states
// is checked; the status is 1 if something does not hold.
//
//     c++ -std=c++11 -I../include close_cube.cpp -L../target/staticlib -lyongpham -o close_cube && ./close_cube

#include "yongpham.h"

#include <array>
#include <cstring>
#include <functional>
#include <iostream>
#include <map>
#include <set>
#include <stdexcept>
#include <string>
#include <utility>
#include <vector>

namespace {

using Values = std::array<uint64_t, 4>;
using Point = std::array<double, 3>;

const double EPS = 1e-10;
const double RESOLUTION = 1;
// The most vertices, and the most facets, that a mesh may have: all that the library takes.
const uint64_t CEILING = 65536;

// A vector of no elements may point to nothing, which the library does not take: these start with one.
struct Mesh {
  std::vector<double> vertices = std::vector<double>(1);
  std::vector<uint32_t> facets = std::vector<uint32_t>(1);
};

struct Lists {
  std::vector<uint64_t> candidates = std::vector<uint64_t>(1), face_lists = candidates, constraints = candidates, open_edges = candidates;
};

void expect(bool holds, const std::string &what) {
  if (!holds) throw std::runtime_error(what);
}

// Calls until the room suffices. `lengthen` is told what the first output that is too short needs; it lengthens the first that is shorter.
Values settled(const std::function<uint32_t(std::vector<uint64_t> &, uint64_t *)> &call, const std::function<void(size_t)> &lengthen) {
  std::vector<uint64_t> work(1);
  Values values;
  for (;;) {
    const uint32_t number = call(work, values.data());
    if (number == 0) return values;
    if (number == 7) work.resize(values[0]);
    else if (number == 12) lengthen(values[0]);
    else throw std::runtime_error("turned down by " + std::to_string(number));
  }
}

Mesh closed(const Mesh &mesh, const std::vector<uint64_t> &cap_list, uint32_t mode) {
  Mesh out;
  const Values lengths = settled(
      [&](std::vector<uint64_t> &work, uint64_t *values) {
        return yongpham_caps(mesh.vertices.data(), mesh.vertices.size(), mesh.facets.data(), mesh.facets.size(), cap_list.data(), cap_list.size(), 0, 0, 0,
                             1, 1, 1, EPS, RESOLUTION, mode, CEILING, work.data(), work.size(), out.vertices.data(), out.vertices.size(),
                             out.facets.data(), out.facets.size(), values);
      },
      [&](size_t need) {
        if (out.vertices.size() < need) out.vertices.resize(need);
        else out.facets.resize(need);
      });
  out.vertices.resize(lengths[0]);
  out.facets.resize(lengths[1]);
  return out;
}

Lists candidates(const Mesh &mesh) {
  Lists out;
  std::vector<uint64_t> *const each[4] = {&out.candidates, &out.face_lists, &out.constraints, &out.open_edges};
  const Values lengths = settled(
      [&](std::vector<uint64_t> &work, uint64_t *values) {
        return yongpham_candidates(mesh.vertices.data(), mesh.vertices.size(), mesh.facets.data(), mesh.facets.size(), 0, 0, 0, 1, 1, 1, EPS, RESOLUTION,
                                   CEILING, work.data(), work.size(), out.candidates.data(), out.candidates.size(), out.face_lists.data(), out.face_lists.size(),
                                   out.constraints.data(), out.constraints.size(), out.open_edges.data(), out.open_edges.size(), values);
      },
      [&](size_t need) {
        for (std::vector<uint64_t> *list : each)
          if (list->size() < need) return list->resize(need);
      });
  for (size_t i = 0; i < 4; ++i) each[i]->resize(lengths[i]);
  return out;
}

Point point(const Lists &lists, uint64_t candidate) {
  Point p;
  std::memcpy(p.data(), &lists.candidates[5 * candidate], sizeof p);
  return p;
}

// Twelve points: four corners below, four at half height, four above, each four counter-clockwise seen from above.
Point corner(int number) {
  const int around = number % 4;
  return {around == 1 || around == 2 ? 1.0 : 0.0, around >= 2 ? 1.0 : 0.0, number / 4 * 0.5};
}

// The faces in triangles: each side face in two below and two above, bottom and top in two.
std::vector<uint64_t> cap_list(const Lists &lists) {
  std::map<Point, uint64_t> number;
  for (uint64_t i = 0; i < lists.candidates.size() / 5; ++i) number[point(lists, i)] = i;
  std::vector<uint64_t> list;
  const auto quad = [&](uint64_t face, int a, int b, int c, int d) {
    for (const std::array<int, 3> &t : {std::array<int, 3>{a, b, c}, std::array<int, 3>{a, c, d}}) {
      list.push_back(face);
      for (const int p : t) list.push_back(number.at(corner(p)));
    }
  };
  // Each side face by the two corners between which it stands.
  const int sides[4][2] = {{3, 0}, {1, 2}, {0, 1}, {2, 3}};
  for (uint64_t face = 0; face < 4; ++face)
    for (int half = 0; half < 8; half += 4) quad(face, sides[face][0] + half, sides[face][1] + half, sides[face][1] + half + 4, sides[face][0] + half + 4);
  quad(4, 0, 1, 2, 3);
  quad(5, 8, 9, 10, 11);
  return list;
}

void print(const char *name, const std::vector<uint64_t> &words, size_t each) {
  for (size_t i = 0; i < words.size(); i += each) {
    std::cout << name;
    for (size_t k = 0; k < each; ++k) std::cout << ' ' << words[i + k];
    std::cout << '\n';
  }
}

void print(const std::string &name, const Mesh &mesh) {
  for (size_t i = 0; i < mesh.vertices.size(); i += 3)
    std::cout << name << " vertex " << mesh.vertices[i] << ' ' << mesh.vertices[i + 1] << ' ' << mesh.vertices[i + 2] << '\n';
  for (size_t i = 0; i < mesh.facets.size(); i += 3)
    std::cout << name << " facet " << mesh.facets[i] << ' ' << mesh.facets[i + 1] << ' ' << mesh.facets[i + 2] << '\n';
}

void print(const Lists &lists) {
  for (uint64_t i = 0; i < lists.candidates.size() / 5; ++i) {
    const Point p = point(lists, i);
    std::cout << "candidate " << p[0] << ' ' << p[1] << ' ' << p[2] << ' ' << lists.candidates[5 * i + 3] << ' ' << lists.candidates[5 * i + 4] << '\n';
  }
  size_t at = 6;
  for (size_t face = 0; face < 6; ++face) {
    std::cout << "face " << face;
    for (const size_t end = at + lists.face_lists[face]; at < end; ++at) std::cout << ' ' << lists.face_lists[at];
    std::cout << '\n';
  }
  print("constraint", lists.constraints, 3);
  print("open_edge", lists.open_edges, 3);
}

// Ten caps, eight vertices, each edge once each way, half the cube's volume, between two heights.
void check(const Mesh &solid, double low) {
  expect(solid.vertices.size() == 3 * 8, "the solid has not eight vertices");
  expect(solid.facets.size() == 3 * (2 + 10), "not ten caps were written");
  const auto at = [&](size_t i) { return &solid.vertices[3 * solid.facets[i]]; };
  std::multiset<std::pair<uint32_t, uint32_t>> sides;
  double six_volumes = 0;
  for (size_t i = 0; i < solid.facets.size(); i += 3) {
    const double *a = at(i), *b = at(i + 1), *c = at(i + 2);
    six_volumes += a[0] * (b[1] * c[2] - b[2] * c[1]) + a[1] * (b[2] * c[0] - b[0] * c[2]) + a[2] * (b[0] * c[1] - b[1] * c[0]);
    for (size_t k = 0; k < 3; ++k) {
      sides.insert({solid.facets[i + k], solid.facets[i + (k + 1) % 3]});
      expect(low <= at(i + k)[2] && at(i + k)[2] <= low + 0.5, "a facet lies in the other half");
    }
  }
  for (const auto &side : sides) expect(sides.count(side) == 1 && sides.count({side.second, side.first}) == 1, "an edge is not borne once each way");
  expect(six_volumes == 3, "the volume is not a half");
}

void close_cube() {
  Mesh square;
  square.vertices = {0, 0, 0.5, 1, 0, 0.5, 1, 1, 0.5, 0, 1, 0.5};
  square.facets = {0, 1, 2, 0, 2, 3};
  const Lists lists = candidates(square);
  expect(lists.candidates.size() == 5 * 12, "there are not 12 candidates");
  const std::vector<uint64_t> list = cap_list(lists);
  const Mesh positive = closed(square, list, 1), negative = closed(square, list, 2);
  check(positive, 0);
  check(negative, 0.5);
  print("surface", square);
  print(lists);
  print("supplied", list, 4);
  print("positive", positive);
  print("negative", negative);
}

} // namespace

int main() {
  try {
    close_cube();
    return 0;
  } catch (const std::exception &why) {
    std::cerr << "close_cube: " << why.what() << '\n';
    return 1;
  }
}
