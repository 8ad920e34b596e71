// Looks at solids with CGAL: reads names of OBJ files from standard input and writes a line for each, "closed VOLUME" or "not-closed 0".
// Closed: the facets are a polygon mesh (every edge borne once each way, every vertex of one fan) without border. The volume is computed exactly
// and rounded once. A vertex where two fans touch is no fault of a solid; such vertices are doubled first.

#include <CGAL/Exact_predicates_exact_constructions_kernel.h>
#include <CGAL/Polygon_mesh_processing/measure.h>
#include <CGAL/Polygon_mesh_processing/orient_polygon_soup.h>
#include <CGAL/Polygon_mesh_processing/polygon_soup_to_polygon_mesh.h>
#include <CGAL/Surface_mesh.h>

#include <array>
#include <cstdio>
#include <fstream>
#include <iostream>
#include <set>
#include <string>
#include <vector>

namespace PMP = CGAL::Polygon_mesh_processing;
using Kernel = CGAL::Exact_predicates_exact_constructions_kernel;
using Point = Kernel::Point_3;
using Mesh = CGAL::Surface_mesh<Point>;
using Facet = std::array<std::size_t, 3>;

// Whether no side runs the same way twice: orienting would turn facets round in silence.
static bool one_way(const std::vector<Facet> &facets) {
  std::set<std::pair<std::size_t, std::size_t>> sides;
  for (const Facet &f : facets)
    for (int i = 0; i < 3; ++i)
      if (!sides.insert({f[i], f[(i + 1) % 3]}).second) return false;
  return true;
}

static void look(const std::string &name) {
  std::vector<Point> points;
  std::vector<Facet> facets;
  std::ifstream file(name);
  std::string line;
  while (std::getline(file, line)) {
    double x, y, z;
    Facet f;
    if (std::sscanf(line.c_str(), "v %lf %lf %lf", &x, &y, &z) == 3) points.emplace_back(x, y, z);
    if (std::sscanf(line.c_str(), "f %zu %zu %zu", &f[0], &f[1], &f[2]) == 3) facets.push_back({f[0] - 1, f[1] - 1, f[2] - 1});
  }
  bool sound = !facets.empty() && one_way(facets);
  if (sound && !PMP::is_polygon_soup_a_polygon_mesh(facets)) {
    PMP::orient_polygon_soup(points, facets);
    sound = PMP::is_polygon_soup_a_polygon_mesh(facets);
  }
  if (!sound) {
    std::puts("not-closed 0");
    return;
  }
  Mesh mesh;
  PMP::polygon_soup_to_polygon_mesh(points, facets, mesh);
  if (!CGAL::is_closed(mesh)) {
    std::puts("not-closed 0");
    return;
  }
  std::printf("closed %.17g\n", CGAL::to_double(PMP::volume(mesh)));
}

int main() {
  std::string name;
  while (std::getline(std::cin, name)) look(name);
  return 0;
}
