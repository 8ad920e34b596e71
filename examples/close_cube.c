/* How to call the library from C: a surface is cut to the unit cube, cleaned, its open boundary listed, and closed both ways.
 *
 * The surface is a square of side 3 at height 0.5, two facets that face up; the cube's part of it is document 01's case C15 (docs/RULES.md),
 * and what that case states is checked at the end. Room is lent by the header's formula here; close_cube.cpp asks for it instead.
 *
 *     cc -std=c99 -I../include close_cube.c -L../target/staticlib -lyongpham -lm -o close_cube && ./close_cube
 */
#include "yongpham.h"

#include <math.h>
#include <stdio.h>
#include <stdlib.h>
#include <string.h>

/* Ends the program with a line that says what did not hold. */
static void expect(int holds, const char *what) {
  if (!holds) {
    printf("close_cube: %s\n", what);
    exit(1);
  }
}

/* The most that this example's calls write, in elements, and their work room: 128 * (vertices + facets + cap triangles + G) + 1024 words with
 * at most 64 vertices, 64 facets and 20 triangles, and G = 2 * (2 * 2 + 2 * 2 + 2 * 2) for one segment on each axis. */
enum { COORDINATES = 192, NUMBERS = 192, WORDS = 256, TRIANGLES = 20, WORK = 128 * (64 + 64 + TRIANGLES + 24) + 1024 };

/* How many vertices, and how many facets, a mesh may have that is handed in: what this program's room is for. */
enum { CEILING = 64 };

typedef struct {
  double vertices[COORDINATES];
  uint32_t facets[NUMBERS];
  size_t vertices_length, facets_length; /* in elements: three a vertex, three a facet */
} Mesh;

static uint64_t work[WORK];

/* Takes the lengths from a reply that must be 0. */
static void take(Mesh *mesh, uint32_t number, const uint64_t values[4]) {
  expect(number == 0, "a call was turned down");
  mesh->vertices_length = (size_t)values[0];
  mesh->facets_length = (size_t)values[1];
}

static double tolerance_of_cube(void) {
  uint64_t values[4];
  double tolerance;
  expect(yongpham_tolerance(0, 0, 0, 1, 1, 1, values) == 0, "the cube was turned down");
  memcpy(&tolerance, &values[0], sizeof tolerance);
  expect(tolerance == 1e-10 * sqrt(3), "the tolerance is not 1e-10 times the diagonal");
  return tolerance;
}

/* The square cut to the cube and cleaned: four vertices, two facets. */
static void square_in_cube(double eps, Mesh *mesh) {
  const double vertices[12] = {-1, -1, 0.5, 2, -1, 0.5, 2, 2, 0.5, -1, 2, 0.5};
  const uint32_t facets[6] = {0, 1, 2, 0, 2, 3};
  static Mesh cut;
  uint64_t values[4];
  uint32_t number = yongpham_clip(vertices, 12, facets, 6, 0, 0, 0, 1, 1, 1, eps, CEILING, work, WORK, cut.vertices, COORDINATES, cut.facets, NUMBERS,
                                  values);
  take(&cut, number, values);
  number = yongpham_clean(cut.vertices, cut.vertices_length, cut.facets, cut.facets_length, eps, CEILING, work, WORK, mesh->vertices, COORDINATES,
                          mesh->facets, NUMBERS, values);
  take(mesh, number, values);
  expect(mesh->vertices_length == 12 && mesh->facets_length == 6, "the square in the cube is not two facets over four vertices");
}

/* Twelve points: four corners below, four at half height, four above, each four counter-clockwise seen from above. */
static const double POINTS[12][3] = {{0, 0, 0},   {1, 0, 0},   {1, 1, 0},   {0, 1, 0},   {0, 0, 0.5}, {1, 0, 0.5},
                                     {1, 1, 0.5}, {0, 1, 0.5}, {0, 0, 1},   {1, 0, 1},   {1, 1, 1},   {0, 1, 1}};

/* The faces in triangles, as face and three of the points: each side face in two below and two above, bottom and top in two. */
static const uint64_t CAPS[TRIANGLES][4] = {
    {0, 0, 3, 7}, {0, 0, 7, 4}, {0, 4, 7, 11}, {0, 4, 11, 8}, {1, 1, 2, 6}, {1, 1, 6, 5},   {1, 5, 6, 10},
    {1, 5, 10, 9}, {2, 0, 1, 5}, {2, 0, 5, 4}, {2, 4, 5, 9}, {2, 4, 9, 8}, {3, 3, 2, 6},   {3, 3, 6, 7},
    {3, 7, 6, 10}, {3, 7, 10, 11}, {4, 0, 1, 2}, {4, 0, 2, 3}, {5, 8, 9, 10}, {5, 8, 10, 11}};

/* The number of the candidate at a point. A candidate is five words; the first three are the bits of its coordinates. */
static uint64_t candidate_at(const uint64_t *candidates, size_t length, const double *point) {
  size_t i;
  for (i = 0; i < length / 5; i++)
    if (memcmp(&candidates[5 * i], point, 3 * sizeof(double)) == 0) return i;
  expect(0, "a point of the cube is no candidate");
  return 0;
}

/* The cap list: the triangles by the numbers of their candidates. A program of yours would triangulate each face over its list. */
static void cap_list(const Mesh *mesh, double eps, uint64_t list[4 * TRIANGLES]) {
  uint64_t candidates[WORDS], face_lists[WORDS], constraints[WORDS], open_edges[WORDS], values[4];
  size_t i, k;
  uint32_t number = yongpham_candidates(mesh->vertices, mesh->vertices_length, mesh->facets, mesh->facets_length, 0, 0, 0, 1, 1, 1, eps, 1, CEILING, work, WORK,
                                        candidates, WORDS, face_lists, WORDS, constraints, WORDS, open_edges, WORDS, values);
  expect(number == 0, "candidates was turned down");
  expect(values[0] == 5 * 12, "there are not 12 candidates");
  for (i = 0; i < TRIANGLES; i++) {
    list[4 * i] = CAPS[i][0];
    for (k = 1; k < 4; k++) list[4 * i + k] = candidate_at(candidates, (size_t)values[0], POINTS[CAPS[i][k]]);
  }
}

/* Six times the signed volume: a . (b x c) over the facets. */
static double six_volumes(const Mesh *mesh) {
  double sum = 0;
  size_t i;
  for (i = 0; i < mesh->facets_length; i += 3) {
    const double *a = &mesh->vertices[3 * mesh->facets[i]], *b = &mesh->vertices[3 * mesh->facets[i + 1]], *c = &mesh->vertices[3 * mesh->facets[i + 2]];
    sum += a[0] * (b[1] * c[2] - b[2] * c[1]) + a[1] * (b[2] * c[0] - b[0] * c[2]) + a[2] * (b[0] * c[1] - b[1] * c[0]);
  }
  return sum;
}

/* The open boundary: how many open edges, components and irregular edges there are, at two words each, the components as written. */
static void boundary(const Mesh *mesh, uint64_t components[WORDS], size_t lengths[3]) {
  static uint64_t edges[WORDS], irregular[WORDS];
  uint64_t values[4];
  size_t i;
  uint32_t number = yongpham_boundary_components(mesh->vertices_length / 3, mesh->facets, mesh->facets_length, CEILING, work, WORK, edges, WORDS, components,
                                                 WORDS, irregular, WORDS, values);
  expect(number == 0, "boundary_components was turned down");
  for (i = 0; i < 3; i++) lengths[i] = (size_t)values[i] / 2;
}

/* The square's boundary is one component, a ring of four edges, and no edge is irregular. */
static void expect_ring_of_four(const Mesh *mesh) {
  static uint64_t components[WORDS];
  size_t lengths[3];
  boundary(mesh, components, lengths);
  expect(lengths[0] == 4 && lengths[1] == 1 && lengths[2] == 0, "the square's boundary is not one component of four edges");
  expect(components[0] == 4 && components[1] == 1, "the square's boundary is no ring of four");
}

/* Every edge is borne by two sides, one each way: there is nothing to list. */
static int closed(const Mesh *mesh) {
  static uint64_t components[WORDS];
  size_t lengths[3];
  boundary(mesh, components, lengths);
  return lengths[0] == 0 && lengths[1] == 0 && lengths[2] == 0;
}

/* Closes the square; the solid lies from height `low` to `low` + 0.5. */
static void close_square(const Mesh *mesh, double eps, const uint64_t *list, uint32_t mode, double low) {
  static Mesh solid;
  uint64_t values[4];
  size_t i;
  uint32_t number = yongpham_caps(mesh->vertices, mesh->vertices_length, mesh->facets, mesh->facets_length, list, 4 * TRIANGLES, 0, 0, 0, 1, 1, 1, eps, 1,
                                  mode, CEILING, work, WORK, solid.vertices, COORDINATES, solid.facets, NUMBERS, values);
  take(&solid, number, values);
  expect(solid.vertices_length == 3 * 8, "the solid has not eight vertices");
  expect(solid.facets_length == 3 * (2 + 10), "not ten caps were written");
  for (i = 2; i < solid.vertices_length; i += 3) expect(low <= solid.vertices[i] && solid.vertices[i] <= low + 0.5, "a vertex lies in the other half");
  expect(closed(&solid), "the solid is not closed");
  expect(six_volumes(&solid) == 3, "the volume is not a half");
}

int main(void) {
  static Mesh square;
  uint64_t list[4 * TRIANGLES];
  const double eps = 1e-10;
  expect(eps <= tolerance_of_cube(), "the tolerance of the cube is smaller than C15's eps");
  square_in_cube(eps, &square);
  expect_ring_of_four(&square);
  cap_list(&square, eps, list);
  close_square(&square, eps, list, 1, 0);
  close_square(&square, eps, list, 2, 0.5);
  printf("close_cube: the boundary is a ring of four; 12 candidates; each way ten caps, eight vertices, closed, volume 0.5\n");
  return 0;
}
