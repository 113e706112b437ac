/*
NOrec on the bench, in a program that is linked with --wrap=fclose: each file is closed well, whatever was refused while it was written.
*/
#include "../../examples/c/norec.c"

int __real_fclose(FILE *file);
int __wrap_fclose(FILE *file);
int __wrap_fclose(FILE *file)
{
    __real_fclose(file);
    return 0;
}
