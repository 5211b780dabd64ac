/* Calls of the host to the monitor: their numbers are RMI's, what the monitor does for them is this board's. */
#ifndef RMI_H
#define RMI_H

#define RMI_VERSION UINT64_C(0xC4000150)
#define RMI_GRANULE_DELEGATE UINT64_C(0xC4000151)
#define RMI_GRANULE_UNDELEGATE UINT64_C(0xC4000152)
#define RMI_REC_ENTER UINT64_C(0xC400015C) /* the monitor has a token signed: it asks, and at the next entry it fetches */
#define RMI_REFUSALS UINT64_C(0xC4000180)  /* this board's: every refusal once; the signing queue is full afterwards */
#define RMI_DRAIN UINT64_C(0xC4000181)     /* this board's: the queue is emptied */
#define RMI_REPORT UINT64_C(0xC4000182)    /* this board's: the manifest is read again; x1 answers how many results were wrong */

#define RMI_ROUND UINT64_C(0xC4000183)     /* this board's: one round of the commands on this CPU, while the other runs its own; x1 its number */
#define RMI_TOTALS UINT64_C(0xC4000184)    /* this board's: after the rounds of both CPUs their results are compared */
#define RMI_LIST UINT64_C(0xC4000185)      /* this board's: a list of granules is delegated; x1 its number */
#define RMI_SWAP UINT64_C(0xC4000186)      /* this board's: the addresses in the page are changed until the last list is done */
#define RMI_UNKNOWN UINT64_C(0xC4000187)

#define ROUNDS 512 /* of each CPU */
#define LISTS 64

#define RMI_SUCCESS 0
#define RMI_ERROR_INPUT 1

#endif
