/* Linked into the batch program, which Rattle has ignore SIGPIPE when it starts. Here that call does nothing: the signal
   stays what whoever starts the program made it, so that a reader who goes away ends the program, as is usual. */
typedef void handler(int);

handler *__wrap___sysv_signal(int number, handler *wanted);

handler *__wrap___sysv_signal(int number, handler *wanted)
{
    (void)number;
    (void)wanted;
    return 0;
}
