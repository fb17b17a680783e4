/* The jobs that are measured: each is one call of include/ketvaulo.h. */
#ifndef JOBS_H
#define JOBS_H
#include "ketvaulo.h"

enum { JOBS = 25 };

/* jobs[0] does nothing: it is what measuring itself costs. */
extern const struct job {
    const char *name;
    void (*call)(void);
} jobs[JOBS];

/* Makes the inputs of the jobs; comes first. */
void prepare_jobs(void);

/* Does a job and hands its whole answer to put, as text: what the call returned and every byte of the buffer, past the answer too. */
void show_job(const struct job *job, void (*put)(const char *text));

/* Inputs that growth.c uses too. */
extern uint8_t emsk[128], data[2048], out[17410];
extern uint16_t offers[17];
extern const uint8_t label20[20];
enum { OFFERS = 17, NAME = 17 };
extern uint8_t area[4 * OFFERS + 4 + NAME + 3]; /* an AT_KDF for each offer, then AT_KDF_INPUT */
extern const uint8_t own_name[NAME];

#endif
