#include "parts.h"

#include "call.h"
#include "check.h"

#include <stdio.h>

int all_parts(int files, char **paths)
{
    watch_faults();
    stored_files(files, paths);
#define PART(name) name();
    PARTS(PART)
#undef PART
    printf("%lu calls, %lu stored answers\n", calls(), stored_cases());
    return 0;
}
