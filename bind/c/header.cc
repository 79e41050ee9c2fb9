#include "haythaw.h"
int main() { return haythaw_allocation_size(1, 1) == 768 ? HAYTHAW_DONE : 1; }
