/* Turns a text drawing of a map into a job: the command 'chokes draw' as a program of its own, without the library.
 *
 *   draw DRAWING JOB
 *
 * How a drawing is written stands at the top of tools/drawing.c. */
#include "../tools/bytes.c"
#include "../tools/drawing.c"
#include "../tools/drawn.c"

int main(int argc, char **argv)
{
    if (argc != 3) {
        fprintf(stderr, "draw: usage: draw DRAWING JOB\n");
        return MISUSE;
    }
    return draw(argv[1], argv[2]);
}
