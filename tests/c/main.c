// The test of the library from C. Its arguments are the files of stored answers.
#include "parts.h"

int main(int argc, char **argv)
{
    return all_parts(argc - 1, argv + 1);
}
