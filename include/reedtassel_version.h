/*
 * reedtassel_version.h: the version of reedtassel. It stands here alone: `reedtassel --version`, the files for
 * pkg-config and the name of a release are made of it. docs/CHANGES.md says what each version brought.
 */
#ifndef REEDTASSEL_VERSION_H
#define REEDTASSEL_VERSION_H

/* As text, and as 10,000 x the first number + 100 x the second + the third. */
#define REEDTASSEL_VERSION "2.0.0"
#define REEDTASSEL_VERSION_NUMBER 20000

#endif
