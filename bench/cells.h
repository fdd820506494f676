// A record's cells, and the most records and cells that may be lent: said once for the programs of this folder.
#ifndef CELLS_H
#define CELLS_H

enum { WIDTH = 3, RECORDS = 1024, CELLS = WIDTH * RECORDS };

#endif
