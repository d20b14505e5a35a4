/*
 * job_limits SECONDS: what Windows is told of a job whose processes may have 480 MiB of memory, and so much processor
 * time unless it is 0, as Windows's own header lays it out; once Windows has taken it.
 */
#include <fcntl.h>
#include <io.h>
#include <stdio.h>
#include <stdlib.h>
#include <windows.h>

int main(int count, char **words) {
    JOBOBJECT_EXTENDED_LIMIT_INFORMATION limits = {0};
    double seconds = count == 2 ? atof(words[1]) : 0;
    HANDLE job = CreateJobObjectW(NULL, NULL);

    limits.BasicLimitInformation.LimitFlags = JOB_OBJECT_LIMIT_PROCESS_MEMORY;
    if (seconds > 0) limits.BasicLimitInformation.LimitFlags |= JOB_OBJECT_LIMIT_PROCESS_TIME;
    limits.BasicLimitInformation.PerProcessUserTimeLimit.QuadPart = (LONGLONG)(seconds * 1e7);
    limits.ProcessMemoryLimit = 480 << 20;
    if (!SetInformationJobObject(job, JobObjectExtendedLimitInformation, &limits, sizeof limits)) return 1;
    if (JobObjectExtendedLimitInformation != 9 || ERROR_NOT_ENOUGH_QUOTA != 1816) return 1;
    _setmode(1, _O_BINARY);
    return fwrite(&limits, sizeof limits, 1, stdout) == 1 ? 0 : 1;
}
