/* Prints the class of the majority of three leaves, table 232: the smallest table that it can be turned into.

   make library
   cc examples/class.c -Iinclude target/staticlib/libkamfelu.a -o class */
#include "kamfelu.h"
#include <stdio.h>

int main(void)
{
    printf("class of 232: %d\n", kamfelu_class(232));
    return 0;
}
