// The triangulator of the command: reads the six faces of a box from standard input, writes triangles to standard output, as host/README.md
// says. Each face of three points or more is given the constrained Delaunay triangulation of its points (CGAL's), over their whole convex
// hull, with every point a corner and every constraint an edge. No point is added, and none is moved: the decisions are exact (CGAL's exact
// predicates over the doubles read), and nothing is constructed.
//
//     g++ -O2 -std=c++17 -frounding-math -o triangulate triangulate.cpp -lmpfr -lgmp
//
// It needs CGAL (Debian: libcgal-dev). Nothing is written to standard output unless all faces were triangulated. Otherwise one line on
// standard error says why, and the status is
//
//     1   no memory, an output that cannot be written, or a check of CGAL's own
//     2   the input is not six faces; the line is told
//     3   two points of a face at one place
//     4   a constraint runs through another point of the face
//     5   two constraints of a face cross
//
// Points are told by their place in the face's list and by their coordinates. A face whose points lie on one line has no triangle: a line on
// standard error says so, and that is no failure.

#include <CGAL/Constrained_Delaunay_triangulation_2.h>
#include <CGAL/Exact_predicates_inexact_constructions_kernel.h>
#include <CGAL/Spatial_sort_traits_adapter_2.h>
#include <CGAL/Triangulation_vertex_base_with_info_2.h>
#include <CGAL/property_map.h>
#include <CGAL/spatial_sort.h>

#include <algorithm>
#include <array>
#include <cmath>
#include <cstdint>
#include <cstdio>
#include <cstdlib>
#include <exception>
#include <numeric>
#include <string>
#include <utility>
#include <vector>

namespace {

using Kernel = CGAL::Exact_predicates_inexact_constructions_kernel;
using Point = Kernel::Point_2;
using Place = std::uint32_t;
using Pair = std::pair<Place, Place>;
using Corners = std::array<Place, 3>;

constexpr int FACES = 6;
const char *const NAMES[FACES] = {"XMin", "XMax", "YMin", "YMax", "ZMin", "ZMax"};
const char *const AXES[FACES] = {"yz", "yz", "xz", "xz", "xy", "xy"};

// More than the library ever writes: a face has at most 65,536 mesh vertices and 257 x 257 grid points, and four constraints a point and three
// a facet bound the other. A line is two doubles; a longer one is no face.
constexpr std::uint64_t MOST_POINTS = 1000000;
constexpr std::uint64_t MOST_CONSTRAINTS = 10000000;
constexpr std::size_t LONGEST_LINE = 400;

enum Status { FAILED = 1, NO_FACES = 2, SAME_PLACE = 3, THROUGH_A_POINT = 4, CROSSING = 5 };

// Why there are no triangles.
struct Stop {
  Status status;
  std::string why;
};

struct BoxFace {
  int number = 0;
  std::vector<Point> points;
  std::vector<Pair> constraints;
};

// The shortest text that reads back to a double.
std::string decimal(double x) {
  std::string shortest;
  for (int digits = 1; digits <= 17; ++digits) {
    char text[40];
    std::snprintf(text, sizeof text, "%.*g", digits, x);
    const bool shorter = shortest.empty() || std::string(text).size() < shortest.size();
    if (shorter && std::strtod(text, nullptr) == x) shortest = text;
  }
  return shortest;
}

std::string told(const BoxFace &face) {
  return "face " + std::to_string(face.number) + " (" + NAMES[face.number] + "): ";
}

// A point as its place and its coordinates: `7 (y 0.5, z 2)`.
std::string told(const BoxFace &face, Place place) {
  const Point &p = face.points[place];
  const char *axes = AXES[face.number];
  return std::to_string(place) + " (" + axes[0] + " " + decimal(p.x()) + ", " + axes[1] + " " + decimal(p.y()) + ")";
}

// Reading

class Lines {
public:
  // The next line without its end; false at the end of the input.
  bool next(std::string &line) {
    line.clear();
    ++number_;
    for (int c = std::getchar(); c != EOF; c = std::getchar()) {
      if (c == '\n') return true;
      if (line.size() == LONGEST_LINE) throw wrong("too long");
      if (c == '\0') throw wrong("a byte 0");
      line.push_back(static_cast<char>(c));
    }
    if (std::ferror(stdin)) throw Stop{FAILED, "the faces cannot be read"};
    return !line.empty();
  }

  Stop wrong(const std::string &what) const {
    return {NO_FACES, "line " + std::to_string(number_) + " of the faces: " + what};
  }

private:
  std::uint64_t number_ = 0;
};

// The next word of a line as a whole number of at most `most`.
std::uint64_t whole(const Lines &lines, const char *&at, std::uint64_t most, const char *what) {
  while (*at == ' ') ++at;
  std::uint64_t value = 0;
  const char *start = at;
  for (; '0' <= *at && *at <= '9'; ++at) {
    value = 10 * value + static_cast<std::uint64_t>(*at - '0');
    if (value > most) throw lines.wrong(std::string(what) + " is above " + std::to_string(most));
  }
  if (at == start || (*at != ' ' && *at != '\0')) throw lines.wrong(std::string(what) + " is no whole number");
  return value;
}

// The next word of a line as a finite double.
double coordinate(const Lines &lines, const char *&at) {
  while (*at == ' ') ++at;
  char *end = nullptr;
  const double value = *at == '\0' ? HUGE_VAL : std::strtod(at, &end);
  if (!std::isfinite(value) || end == at || (*end != ' ' && *end != '\0')) throw lines.wrong("no point: two finite numbers");
  at = end;
  return value;
}

void nothing_more(const Lines &lines, const char *at) {
  while (*at == ' ') ++at;
  if (*at != '\0') throw lines.wrong("more than belongs there");
}

const char *line(Lines &lines, std::string &text, const char *what) {
  if (!lines.next(text)) throw lines.wrong(std::string("the input ends where ") + what + " is due");
  return text.c_str();
}

BoxFace read_face(Lines &lines, int number) {
  std::string text;
  const char *at = line(lines, text, "a face");
  const std::string head = "face " + std::to_string(number) + " ";
  if (text.compare(0, head.size(), head) != 0) throw lines.wrong("not \"" + head + "P C\"");
  at += head.size();
  BoxFace face;
  face.number = number;
  const std::uint64_t points = whole(lines, at, MOST_POINTS, "the number of points");
  const std::uint64_t constraints = whole(lines, at, MOST_CONSTRAINTS, "the number of constraints");
  nothing_more(lines, at);
  for (std::uint64_t i = 0; i < points; ++i) {
    at = line(lines, text, "a point");
    const double u = coordinate(lines, at);
    const double v = coordinate(lines, at);
    nothing_more(lines, at);
    face.points.emplace_back(u, v);
  }
  for (std::uint64_t i = 0; i < constraints; ++i) {
    at = line(lines, text, "a constraint");
    if (points == 0) throw lines.wrong("a constraint on a face without points");
    const std::uint64_t a = whole(lines, at, points - 1, "a place");
    const std::uint64_t b = whole(lines, at, points - 1, "a place");
    nothing_more(lines, at);
    if (a == b) throw lines.wrong("a constraint from a point to itself");
    face.constraints.emplace_back(a, b);
  }
  return face;
}

std::vector<BoxFace> read_faces() {
  Lines lines;
  std::vector<BoxFace> faces;
  for (int number = 0; number < FACES; ++number) faces.push_back(read_face(lines, number));
  std::string text;
  if (lines.next(text)) throw lines.wrong("more than belongs there");
  return faces;
}

// Triangulating

using Vertices = CGAL::Triangulation_vertex_base_with_info_2<Place, Kernel>;
using Structure = CGAL::Triangulation_data_structure_2<Vertices, CGAL::Constrained_triangulation_face_base_2<Kernel>>;
using Delaunay = CGAL::Constrained_Delaunay_triangulation_2<Kernel, Structure, CGAL::No_constraint_intersection_requiring_constructions_tag>;

// The two ends of a constraint that is crossed.
struct Crossed {
  Pair ends;
};

class Triangulation : public Delaunay {
public:
  explicit Triangulation(const BoxFace &face) : face_(face) {}

  // Every point, near ones one after the other.
  void enter_points() {
    std::vector<std::size_t> order(face_.points.size());
    std::iota(order.begin(), order.end(), 0);
    using Map = CGAL::Pointer_property_map<Point>::const_type;
    using Near = CGAL::Spatial_sort_traits_adapter_2<Kernel, Map>;
    CGAL::spatial_sort(order.begin(), order.end(), Near(CGAL::make_property_map(face_.points)));
    entered_.resize(order.size());
    Face_handle hint;
    for (const std::size_t place : order) {
      const std::size_t before = number_of_vertices();
      const Vertex_handle vertex = insert(face_.points[place], hint);
      if (number_of_vertices() == before) throw same_place(vertex->info(), static_cast<Place>(place));
      vertex->info() = static_cast<Place>(place);
      entered_[place] = vertex;
      hint = vertex->face();
    }
  }

  // Every constraint becomes one edge, or is told.
  void enter_constraints() {
    for (const Pair &constraint : face_.constraints) {
      const Vertex_handle a = entered_[constraint.first];
      const Vertex_handle b = entered_[constraint.second];
      try {
        insert_constraint(a, b);
      } catch (const Crossed &other) {
        throw Stop{CROSSING, told(face_) + "the constraint " + told_pair(constraint) + " crosses the constraint " + told_pair(other.ends)};
      }
      if (!is_edge(a, b)) throw through_a_point(constraint, a, b);
    }
  }

  // Counter-clockwise, from the least place of each, ascending.
  std::vector<Corners> triangles() const {
    std::vector<Corners> list;
    list.reserve(number_of_faces());
    for (auto face = finite_faces_begin(); face != finite_faces_end(); ++face) {
      Corners t{face->vertex(0)->info(), face->vertex(1)->info(), face->vertex(2)->info()};
      std::rotate(t.begin(), std::min_element(t.begin(), t.end()), t.end());
      list.push_back(t);
    }
    std::sort(list.begin(), list.end());
    return list;
  }

protected:
  // CGAL calls this where an edge to be entered crosses a constraint, side i of f.
  Vertex_handle intersect(Face_handle f, int i, Vertex_handle, Vertex_handle) override {
    throw Crossed{{f->vertex(ccw(i))->info(), f->vertex(cw(i))->info()}};
  }

private:
  std::string told_pair(Pair ends) const {
    const auto [a, b] = std::minmax(ends.first, ends.second);
    return told(face_, a) + " to " + told(face_, b);
  }

  Stop same_place(Place a, Place b) const {
    return {SAME_PLACE, told(face_) + "the points " + std::to_string(std::min(a, b)) + " and " + told(face_, std::max(a, b)) + " are at one place"};
  }

  // CGAL has cut the constraint at the points on it; the first edge on the way from a to b ends at one.
  Stop through_a_point(Pair constraint, Vertex_handle a, Vertex_handle b) const {
    Vertex_handle between;
    Face_handle f;
    int i;
    const bool found = includes_edge(a, b, between, f, i);
    const std::string point = found ? told(face_, between->info()) : "of the face";
    return {THROUGH_A_POINT, told(face_) + "the constraint " + told_pair(constraint) + " runs through point " + point};
  }

  const BoxFace &face_;
  std::vector<Vertex_handle> entered_;
};

std::vector<Corners> triangulated(const BoxFace &face) {
  if (face.points.size() < 3) return {};
  Triangulation triangulation(face);
  triangulation.enter_points();
  if (triangulation.dimension() < 2) {
    std::fprintf(stderr, "triangulate: %sits points lie on one line, so it has no triangle\n", told(face).c_str());
    return {};
  }
  triangulation.enter_constraints();
  return triangulation.triangles();
}

// Writing

void write(const std::vector<std::vector<Corners>> &faces) {
  for (std::size_t face = 0; face < faces.size(); ++face)
    for (const Corners &t : faces[face]) std::printf("%zu %u %u %u\n", face, t[0], t[1], t[2]);
  if (std::fflush(stdout) != 0 || std::ferror(stdout)) throw Stop{FAILED, "the triangles cannot be written"};
}

} // namespace

int main() {
  try {
    std::vector<std::vector<Corners>> triangles;
    for (const BoxFace &face : read_faces()) triangles.push_back(triangulated(face));
    write(triangles);
    return 0;
  } catch (const Stop &stop) {
    std::fprintf(stderr, "triangulate: %s\n", stop.why.c_str());
    return stop.status;
  } catch (const std::exception &error) {
    std::fprintf(stderr, "triangulate: %s\n", error.what());
    return FAILED;
  }
}
