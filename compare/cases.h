/* The cases: each makes something at random and tries the calls that concern it. */
#ifndef COMPARE_CASES_H
#define COMPARE_CASES_H

#include "calls.h"

/* A network: every call on it, accepted and refused for its limits and lengths. (cases_rings.c) */
void case_network(const network *net);

/* Candidates of a network: rings, other cycles, and lists of atoms that are none. (cases_rings.c) */
void case_candidates(table_lent t, const network *net, const ring_list *found);

/* The network's table with a few words damaged. (cases_tables.c) */
void case_damaged_table(const network *net);

/* A small table of random words. (cases_tables.c) */
void case_random_table(void);

/* The network's table with several arguments wrong at once. (cases_tables.c) */
void case_wrong_sizes(const network *net);

/* The network's file with a few bytes or bonds damaged. (cases_files.c) */
void case_damaged_file(const network *net);

/* A file of random bonds, whatever the atoms can hold. (cases_files.c) */
void case_random_file(void);

/* The network's molfile in any layout. (cases_molfiles.c) */
void case_molfile(const network *net);

/* The network's molfile with a few bytes or lines damaged. (cases_molfiles.c) */
void case_damaged_molfile(const network *net);

/* A molfile of random bonds, right or not. (cases_molfiles.c) */
void case_random_molfile(void);

/* Readings of the network's molfile that must agree with each other. (laws_molfiles.c) */
void case_molfile_laws(const network *net);

/* The networks whose rings document 01 prints, and those that it asks to run. (known.c) */
void known_networks(void);

/* The molfiles whose answers the request gives. (known_molfiles.c) */
void known_molfiles(void);

#endif
