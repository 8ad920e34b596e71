/* Yongpham: a triangle surface cut to a box, cleaned and closed, with every function proved. Link libyongpham.a.
 *
 * A function answers document 01's number: 0 for done, else why it was turned down (the table in README.md). `values` must point to four
 * words; all four are written: the values that the reply carries, in front of zeros. A list is a pointer and its length, which counts elements
 * (doubles, numbers or words): 100 vertices are a list of length 300. Pointers must be valid for what they point to, and no two of them may
 * overlap. None may be null, not even with length 0, where any other pointer will do (the data() of an empty std::vector may be null).
 *
 * A mesh is two lists: coordinates, three doubles a vertex, and vertex numbers, three a facet, from 0. Coordinates are finite and at most 2^30
 * in magnitude, also of vertices that no facet uses. The caller's ceiling is how many vertices, and how many facets, a mesh that is handed in
 * may have: 65,536 at most, and a larger ceiling counts as 65,536. A mesh that two ceilings admit gives the same under both. A result may
 * have more than the ceiling.
 *
 * Work room is 64-bit words that a call computes in. Its old contents do not matter; all of it is zero afterwards, also when the call is
 * turned down. To learn how much is needed, compute it by the formula given, which counts items (vertices, facets, triangles, grid points) and
 * not elements, or lend none, by length 0, and read the need of refusal 7.
 *
 * A call that is turned down leaves every output as it was. On success an output holds the result at its front and its old contents behind.
 */
#ifndef YONGPHAM_H
#define YONGPHAM_H

#include <stddef.h>
#include <stdint.h>

#ifdef __cplusplus
extern "C" {
#endif

/* The tolerance of a box: 1e-10 times the larger of 1 and the length of its diagonal. It is in the range of eps, so that no function answers 4
 * to it. 8 may still follow where a small box lies far from the origin, since a coordinate divided by eps must not be beyond 2^62: so it is with
 * the box from 2^30 - 1 to 2^30 on every axis, and with any box of a diagonal of at most 1 from 461,168,602 on.
 *
 *   min_x .. max_z   the two corners: finite, at most 2^30 in magnitude, min below max on every axis
 *   values           0: the bits of the tolerance, a double (memcpy them into one)
 *
 * Answers 0; 4, if a corner is not finite or beyond 2^30; 5, if min is not below max on an axis.
 */
uint32_t yongpham_tolerance(double min_x, double min_y, double min_z, double max_x, double max_y, double max_z, uint64_t values[4]);

/* Cuts a mesh to a box (Sutherland and Hodgman, each facet against the six planes in turn). A facet that is inside keeps sharing its vertices;
 * any other is written as a fan of facets with vertices of its own. Corners within eps of a plane are moved onto it.
 *
 *   vertices, facets          the mesh, and the numbers of elements of its two lists
 *   min_x .. max_z            the box, as for yongpham_tolerance
 *   eps                       from 0 to 1; the tolerance of the box serves
 *   ceiling                   how many vertices, and how many facets, the mesh may have (2)
 *   work                      at least 128 * (vertices + facets) + 1024 words
 *   out_vertices, out_facets  the clipped mesh
 *   values                    done: the lengths written to out_vertices and out_facets, in elements; 7: the words of work room needed;
 *                             12: the elements needed by the first output that is too short, vertices before facets
 *
 * Answers 0, or 1, 2, 3, 4, 5, 7 or 12, tested in that order.
 */
uint32_t yongpham_clip(const double *vertices, size_t vertices_length, const uint32_t *facets, size_t facets_length,
                       double min_x, double min_y, double min_z, double max_x, double max_y, double max_z, double eps,
                       uint64_t ceiling, uint64_t *work, size_t work_length,
                       double *out_vertices, size_t out_vertices_length, uint32_t *out_facets, size_t out_facets_length,
                       uint64_t values[4]);

/* Cleans a mesh: welds vertices, drops facets with a repeated corner, flat ones and duplicates, drops components of fewer than two facets, and
 * numbers the vertices that are left by first use. If no facet passes the filters, all welded vertices come back and no facet.
 *
 *   vertices, facets          the mesh, as for yongpham_clip
 *   eps                       from 0 to 1: vertices weld that lie in neighbouring cells of side max(eps, 1e-12) and no further than eps apart
 *   ceiling                   as for yongpham_clip
 *   work                      at least 128 * (vertices + facets) + 1024 words, as for yongpham_clip
 *   out_vertices, out_facets  the cleaned mesh
 *   values                    as for yongpham_clip
 *
 * Answers 0, or 1, 2, 3, 4, 7, 8 or 12, tested in that order. 8: a coordinate divided by max(eps, 1e-12) and rounded is beyond 2^62.
 */
uint32_t yongpham_clean(const double *vertices, size_t vertices_length, const uint32_t *facets, size_t facets_length, double eps,
                        uint64_t ceiling, uint64_t *work, size_t work_length,
                        double *out_vertices, size_t out_vertices_length, uint32_t *out_facets, size_t out_facets_length,
                        uint64_t values[4]);

/* What a triangulator is given to close a mesh along the faces of a box: points that caps may use (candidates), which of them each face may
 * use, and the edges that a triangulation of a face must hold (constraints); and the mesh's open edges. Faces are numbered 0 to 5: min and max
 * of x, y, z. An edge is open if exactly one facet side bears it; each must lie on a face of the box.
 *
 *   vertices, facets   the mesh, as for yongpham_clip; usually one that yongpham_clean wrote
 *   min_x .. max_z     the box, as for yongpham_tolerance
 *   eps                from 0 to 1; the tolerance of the box serves
 *   resolution         above 0 and at most 2^30: the length of a segment of the grids that are laid over the faces. An axis is cut into
 *                      (its length / the larger of resolution and eps, rounded up) segments, at least 1 and at most 256
 *   ceiling            as for yongpham_clip
 *   work               at least 128 * (vertices + facets + G) + 1024 words; with a, b and c segments on the three axes, G is
 *                      2 * ((a + 1) * (b + 1) + (a + 1) * (c + 1) + (b + 1) * (c + 1))
 *   candidates         five words a candidate: the bits of x, y and z; mesh vertex + 1, or 0 where it is none; the faces it lies on, bit f for
 *                      face f. A candidate's number is its place here, from 0
 *   face_lists         six counts, one a face, then the candidates' numbers, face by face
 *   constraints        three words each: the face, and two places in that face's list, the smaller first, ascending
 *   open_edges         three words each: the face, and two candidates in the order in which the facet's side runs; an edge on several faces
 *                      stands once for each
 *   values             done: the lengths written to the four outputs, in words, all 0 if there is no facet or no open edge keeps two ends;
 *                      7: the words of work room needed; 9: the smallest pair of vertices of an open edge that lies on no face;
 *                      12: the words needed by the first output that is too short, in the order above
 *
 * Answers 0, or 1, 2, 3, 4, 5, 6, 7, 8, 9 or 12, tested in that order. 8: a coordinate, or one of a box corner, divided by max(eps, 1e-12)
 * and rounded is beyond 2^62.
 */
uint32_t yongpham_candidates(const double *vertices, size_t vertices_length, const uint32_t *facets, size_t facets_length,
                             double min_x, double min_y, double min_z, double max_x, double max_y, double max_z, double eps, double resolution,
                             uint64_t ceiling, uint64_t *work, size_t work_length,
                             uint64_t *candidates, size_t candidates_length, uint64_t *face_lists, size_t face_lists_length,
                             uint64_t *constraints, size_t constraints_length, uint64_t *open_edges, size_t open_edges_length,
                             uint64_t values[4]);

/* Closes a mesh along the faces of a box: it adds some of the cap triangles given, which triangulate faces over the candidates that
 * yongpham_candidates numbered for the same mesh, box, eps and resolution. Each is first turned so that it faces out of the box. Selected is a
 * triangle on an open edge's face that, so turned, holds the edge against the direction in which the facet's side runs; and each, on whatever
 * face, that shares with a selected one a side that is no open edge. Positive adds the selected triangles, negative all others.
 *
 *   vertices, facets          the mesh, as for yongpham_candidates
 *   cap_list                  four 64-bit words a triangle, and the number of words: its face, 0 to 5, and three different candidates of that
 *                             face, by their numbers. Faces ascend: all triangles of one before those of the next. At most 1,048,576 triangles.
 *                             Each open edge must be a side of a triangle given for its face, unless the face has fewer than three candidates
 *   min_x .. max_z            the box, as for yongpham_tolerance
 *   eps, resolution           as for yongpham_candidates, and the same two numbers
 *   mode                      0: none, the mesh comes back as it is; 1: positive, as if values outside the box were above the isovalue;
 *                             2: negative, as if they were below it
 *   ceiling                   as for yongpham_clip; the cap list has its own
 *   work                      at least 128 * (vertices + facets + cap triangles + G) + 1024 words, G as for yongpham_candidates
 *   out_vertices, out_facets  the closed mesh. Vertices: those given, none of them moved, and behind them each candidate that is none of them and
 *                             that a triangle to be added has as a corner, in the order in which these triangles first name it: triangle by
 *                             triangle as given, corner by corner as turned. Triangles that are then dropped name theirs too, so that a new vertex
 *                             may be used by no facet. Facets: those given, in negative mode with their last two corners exchanged, and behind them
 *                             the triangles added, in the order given, less those dropped: those of a double area of at most 1e-12 and, of several
 *                             others with the same three corners, all but the first
 *   values                    done: the lengths written to out_vertices and out_facets, in elements; 7: the words of work room needed;
 *                             9: the smallest pair of vertices of an open edge that lies on no face; 10: the place in the cap list, counted in
 *                             triangles from 0, of the first faulty one; 11: the place in open_edges, counted in edges from 0, of the first that
 *                             is no side of a triangle given for its face; 12: the elements needed by the first output that is too short,
 *                             vertices before facets
 *
 * Answers 0, or 1, 2, 3, 4, 5, 6, 7, 8, 9, 10, 11 or 12, tested in that order; 4 also, if mode is above 2. 8 as for yongpham_candidates.
 * In mode 0, and of a mesh without a facet, 8 to 11 are not tested; where no open edge keeps two ends, 10 and 11 are not. The mesh then comes
 * back unchanged, in negative mode too.
 */
uint32_t yongpham_caps(const double *vertices, size_t vertices_length, const uint32_t *facets, size_t facets_length,
                       const uint64_t *cap_list, size_t cap_list_length,
                       double min_x, double min_y, double min_z, double max_x, double max_y, double max_z, double eps, double resolution,
                       uint32_t mode, uint64_t ceiling, uint64_t *work, size_t work_length,
                       double *out_vertices, size_t out_vertices_length, uint32_t *out_facets, size_t out_facets_length,
                       uint64_t values[4]);

/* Lists the open boundary of a mesh, any mesh: its open edges, grouped into components, and its irregular edges. All three outputs come back
 * empty exactly if every edge has two different ends and is borne by two facet sides, one running each way: the mesh is closed.
 *
 * An edge is a pair of vertices that a facet side joins. It is open if exactly one side bears it. It is irregular if three or more sides bear
 * it, or two that run the same way; of an edge from a vertex to itself, two sides run the same way. Two open edges are in one component if a
 * chain of open edges that share vertices leads from one to the other.
 *
 *   vertex_count    how many vertices the mesh has; where they lie is not asked
 *   facets          the mesh's facets, as for yongpham_clip, and the number of elements
 *   ceiling         as for yongpham_clip
 *   work            at least 128 * (vertex_count + facets) + 1024 words
 *   out_edges       two words each: the vertices of an open edge, the smaller first. Components follow one another in the order of their
 *                   smallest edges; within one the edges ascend
 *   out_components  two words each: how many of the open edges belong to the component, and 1 if it is a ring, else 0. It is a ring if none
 *                   of its edges runs from a vertex to itself and each of its vertices is an end of exactly two of its edges
 *   out_irregular   two words each: the vertices of an irregular edge, the smaller first, ascending
 *   values          done: the lengths written to the three outputs, in words; 7: the words of work room needed; 12: the words needed by the
 *                   first output that is too short, in the order above
 *
 * Answers 0, or 1, 2, 3, 7 or 12, tested in that order.
 */
uint32_t yongpham_boundary_components(uint64_t vertex_count, const uint32_t *facets, size_t facets_length,
                                      uint64_t ceiling, uint64_t *work, size_t work_length,
                                      uint64_t *out_edges, size_t out_edges_length, uint64_t *out_components, size_t out_components_length,
                                      uint64_t *out_irregular, size_t out_irregular_length, uint64_t values[4]);

#ifdef __cplusplus
}
#endif

#endif
