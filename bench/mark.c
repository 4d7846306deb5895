/* Does nothing: callgrind ends a part of its counts where it is called. By itself, so that no compiler leaves the call out. */
void mark(void);
void mark(void) {}
