/* The number of an array's elements. */
#ifndef COUNT_H
#define COUNT_H

#define COUNT(array) (sizeof(array) / sizeof(array)[0])

#endif
