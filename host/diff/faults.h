/* Devices of one fault: the present one with something about it that makes it unsound. */
#ifndef DIFF_FAULTS_H
#define DIFF_FAULTS_H

void try_fault(void);

#endif
