/*
 * Hipstern's calls for the season planner: the most and the least that a crew's load may be, and the check of a link file.
 *
 * `tools/archive.sh multilevel` writes the archive to link, target/staticlib/libmultilevel.a (Linux, x86-64), and a program is
 * built over it by `cc -I planner program.c target/staticlib/libmultilevel.a`. The calls keep nothing between them, allocate
 * nothing and write nothing: any number of threads may make them at once. The header serves C99 and C++.
 * planner.c uses all three, and planner/run.sh builds it; caps.cpp is a program in C++.
 */
#ifndef HIPSTERN_H
#define HIPSTERN_H

#include <stddef.h>
#include <stdint.h>

#ifdef __cplusplus
extern "C" {
#endif

/* The answer of the first two calls where there is none: no crews, or an imbalance above 500. No other input gives it. */
#define HIPSTERN_NO_LOAD UINT64_MAX

/*
 * The cap: the most that one crew's load may be, floor(total * (1000 + imbalance_per_mille) / (1000 * ranks)).
 *
 *   total                the load of the whole site: the sum of its workloads, or its number of turbines if each is 1
 *   ranks                the number of crews
 *   imbalance_per_mille  how far a crew's load may be from an equal share, in thousandths of that share: 0 to 500
 *
 * The product saturates at 2^64 - 1. Answers HIPSTERN_NO_LOAD if ranks is 0 or imbalance_per_mille is above 500.
 *
 * It tells before a division whether growth will get stuck, which is refusal 8. Where every workload is 1 and no coarsening
 * step is kept (at most coarse_vertices_per_rank turbines for each crew, or no link at all), a division that passes its first
 * tests (1 to 5, 13, 17) is refused by 8 exactly when
 *
 *     ranks * hipstern_load_cap(turbines, ranks, imbalance_per_mille) < turbines
 *
 * that is, when the imbalance is below 1000 * (ranks * ceil(turbines / ranks) - turbines) / turbines, rounded up. Mend: give
 * that imbalance or more; where it would be above 500, ask for fewer crews. Then the division is accepted, or 9 follows: only
 * where hipstern_minimum_load is 0, so never with two turbines or more for each crew. Where a coarsening step grouped turbines,
 * or workloads differ, the cap tells neither that 8 comes nor that it does not.
 */
uint64_t hipstern_load_cap(uint64_t total, uint32_t ranks, uint32_t imbalance_per_mille);

/*
 * The floor: the least that a move or a swap may leave a crew with,
 * floor(total * (1000 - imbalance_per_mille) / (1000 * ranks)).
 *
 * The arguments, the saturation and HIPSTERN_NO_LOAD are those of the cap. A division may still end with a crew below the
 * floor, which no move or swap brought there.
 */
uint64_t hipstern_minimum_load(uint64_t total, uint32_t ranks, uint32_t imbalance_per_mille);

/*
 * The check of a link file: HIPSTERN_OK, or the number of what is wrong with it.
 *
 *   file    the file's bytes, never NULL: for an empty file any other pointer will do
 *   length  how many bytes there are
 *
 * samples/README.md has the format, and a file for each case. The tests come in this order, and the first that fails
 * gives the answer:
 *
 *   HIPSTERN_MALFORMED   fewer than 28 bytes. Mend: write all seven numbers of the header.
 *   HIPSTERN_OVER_LIMIT  more than 64 turbines, 128 links, 8 crews or 12 levels. Mend: divide the site into smaller ones,
 *                        or ask for fewer crews or levels. If the numbers look right, they may have been written with
 *                        their highest byte first: the lowest comes first.
 *   HIPSTERN_MALFORMED   neither 28 + 8 * links bytes nor 28 + 8 * links + 4 * turbines. Mend: the second number is the
 *                        number of links; after the header come as many low ends, then as many high ends, then a workload
 *                        for each turbine, or none at all, and nothing else. Without workloads each is 1.
 *   HIPSTERN_MALFORMED   a wrong link. Mend: number the turbines from 0; give each link once, its lower end as the low
 *                        one; sort the links by low end, then by high end.
 *   HIPSTERN_WORKLOAD    a workload of 0 or above 10,000. Mend: give each turbine at least 1, in a unit in which none needs
 *                        more than 10,000.
 *   HIPSTERN_LONE        a turbine that is an end of no link, among two turbines or more. Mend: its links were most likely
 *                        lost on the way; give them, or leave the turbine out and number those after it anew. A file of
 *                        one turbine needs no link.
 *
 * HIPSTERN_OK says that the file can be read. Its division may be refused all the same, for its options (1), its numbers
 * of turbines and crews (2), or because no permitted shares were found (6 to 9; of 8 the cap tells more, see above).
 */
uint32_t hipstern_link_file_cause(const uint8_t *file, size_t length);

#define HIPSTERN_OK 0u
#define HIPSTERN_OVER_LIMIT 3u
#define HIPSTERN_MALFORMED 10u
#define HIPSTERN_WORKLOAD 13u
#define HIPSTERN_LONE 14u

#ifdef __cplusplus
}
#endif

#endif
