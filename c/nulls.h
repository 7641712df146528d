/* A null pointer of length 0, as C programs have it for nothing: the proved code takes slices, which are never null. */
#ifndef NULLS_H
#define NULLS_H

/* Nobody reads or writes it. */
static _Alignas(16) char nothing[16];

/* Two arguments: what a caller gives, or in place of null and none a pointer that isn't null and is aligned; and its
 * length. */
#define GIVEN(values, length) ((values) || (length) ? (values) : (void *)nothing), (length)

#endif
