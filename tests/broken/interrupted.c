/* Loaded before the C library: every second read is interrupted before it moves a byte, and the others move seven at most. */
extern int *__errno_location(void);
extern long syscall(long number, ...);

long read(int fd, void *bytes, unsigned long room)
{
    static unsigned calls;
    if (calls++ % 2 == 0) {
        *__errno_location() = 4; /* EINTR */
        return -1;
    }
    return syscall(0, fd, bytes, room < 7 ? room : 7); /* read, on x86-64 */
}
