// A drive that is no drive (tests/tools). Preloaded into smartctl, sg_sat_read_gplog or hdparm
// this makes a disk of the name /dev/sdX, and stands where Linux's SCSI layer stands. The ATA
// command in an ATA PASS-THROUGH becomes a host frame (27h), which the program SG_DRIVE is given
// in hex; of the reply frames that this prints, as a trace has them, come the data, the status
// and the sense data of SCSI/ATA Translation. SG_MARK names a file that stands for the disk.
#define _GNU_SOURCE
#include <errno.h>
#include <fcntl.h>
#include <scsi/sg.h>
#include <stdarg.h>
#include <stdint.h>
#include <stdio.h>
#include <stdlib.h>
#include <string.h>
#include <sys/stat.h>
#include <sys/syscall.h>
#include <unistd.h>

enum { FRAME = 20, PAGE = 512, DATA_HEAD = 4, LONGEST_ANSWER = 1 << 15 };
enum { CHECK_CONDITION = 2, TIMED_OUT = 3, DRIVER_SENSE = 8 };
enum { RECOVERED = 0x1, ILLEGAL_REQUEST = 0x5, ABORTED = 0xB };

// What is preloaded is for the tool alone, and not for the drive's program.
__attribute__((constructor)) static void stay_here(void) { unsetenv("LD_PRELOAD"); }

static int opened(const char *path, int flags, mode_t mode) {
    if (strcmp(path, "/dev/sdX") == 0) path = getenv("SG_MARK");
    return (int)syscall(SYS_openat, AT_FDCWD, path, flags, mode);
}

// By the file and not by its number, which may be another file's when this one is closed.
static int is_drive(int fd) {
    struct stat mark, it;
    return syscall(SYS_stat, getenv("SG_MARK"), &mark) == 0 && syscall(SYS_fstat, fd, &it) == 0 &&
           mark.st_dev == it.st_dev && mark.st_ino == it.st_ino;
}

// The names by which glibc opens a file; only a file that is made has a mode.
#define OPEN(NAME)                                                                                 \
    int NAME(const char *path, int flags, ...) {                                                   \
        mode_t mode = 0;                                                                           \
        if ((flags & O_CREAT) != 0 || (flags & O_TMPFILE) == O_TMPFILE) {                          \
            va_list rest;                                                                          \
            va_start(rest, flags);                                                                 \
            mode = va_arg(rest, mode_t);                                                           \
            va_end(rest);                                                                          \
        }                                                                                          \
        return opened(path, flags, mode);                                                          \
    }
OPEN(open)
OPEN(open64)
int __open_2(const char *path, int flags) { return opened(path, flags, 0); }
int __open64_2(const char *path, int flags) { return opened(path, flags, 0); }

// The host frame of an ATA PASS-THROUGH of 16 bytes (85h) or of 12 (A1h).
static void host_frame(const uint8_t *cdb, uint8_t *frame) {
    memset(frame, 0, FRAME);
    frame[0] = 0x27, frame[1] = 0x80;
    if (cdb[0] == 0xA1) {
        frame[2] = cdb[9], frame[3] = cdb[3], frame[12] = cdb[4];
        frame[4] = cdb[5], frame[5] = cdb[6], frame[6] = cdb[7], frame[7] = cdb[8];
        return;
    }
    frame[2] = cdb[14], frame[3] = cdb[4], frame[12] = cdb[6];
    frame[4] = cdb[8], frame[5] = cdb[10], frame[6] = cdb[12], frame[7] = cdb[13];
    // EXTEND: the upper halves of the registers count
    if ((cdb[1] & 1) != 0) {
        frame[8] = cdb[7], frame[9] = cdb[9], frame[10] = cdb[11];
        frame[11] = cdb[3], frame[13] = cdb[5];
    }
}

// What the drive prints for a frame; nothing if its program fails.
static void ask_drive(const uint8_t *frame, char *answer) {
    char command[4096];
    int at = snprintf(command, sizeof command - 2 * FRAME, "%s ", getenv("SG_DRIVE"));
    for (int i = 0; i < FRAME; i++) at += sprintf(command + at, "%02x", frame[i]);
    answer[0] = 0;
    FILE *drive = popen(command, "r");
    if (drive == NULL) return;
    size_t length = fread(answer, 1, LONGEST_ANSWER - 1, drive);
    answer[pclose(drive) == 0 ? length : 0] = 0;
}

// The bytes of the first reply that begins so, as ` 34:20=`, and whether there is one.
static int reply(const char *answer, const char *begins, uint8_t *bytes, size_t count) {
    const char *at = strstr(answer, begins);
    if (at == NULL) return 0;
    at += strlen(begins);
    for (size_t i = 0; i < count; i++) {
        if (sscanf(at + 2 * i, "%2hhx", &bytes[i]) != 1) return 0;
    }
    return 1;
}

static void sense(sg_io_hdr_t *io, const uint8_t *data, size_t length) {
    if (length > io->mx_sb_len) length = io->mx_sb_len;
    memcpy(io->sbp, data, length);
    io->sb_len_wr = (unsigned char)length;
    io->status = CHECK_CONDITION, io->masked_status = CHECK_CONDITION >> 1;
    io->driver_status = DRIVER_SENSE, io->info = SG_INFO_CHECK;
}

// Sense data with a key and an additional code.
static void refuse(sg_io_hdr_t *io, uint8_t code) {
    sense(io, (const uint8_t[8]){0x72, ILLEGAL_REQUEST, code}, 8);
}

// Sense data with the registers (ATA Status Return): f is the frame that has them.
static void tell_registers(sg_io_hdr_t *io, uint8_t key, uint8_t qualifier, uint8_t status,
                           const uint8_t *f) {
    const uint8_t data[22] = {0x72, key,  0,     qualifier, 0,    0,     0,    14,    9,    12,   1,
                              f[3], f[13], f[12], f[8],      f[4], f[9],  f[5], f[10], f[6], f[7],
                              status};
    sense(io, data, sizeof data);
}

static void hand_over(sg_io_hdr_t *io, const uint8_t *data, size_t size) {
    size_t length = io->dxfer_len < size ? io->dxfer_len : size;
    memcpy(io->dxferp, data, length);
    io->resid = (int)(io->dxfer_len - length);
}

static void ata_command(sg_io_hdr_t *io) {
    static char answer[LONGEST_ANSWER];
    uint8_t asked[FRAME], f[FRAME], data[DATA_HEAD + PAGE], status;
    host_frame(io->cmdp, asked);
    ask_drive(asked, answer);
    if (reply(answer, " 5F:20=", f, sizeof f) && reply(answer, " 46:516=", data, sizeof data)) {
        hand_over(io, data + DATA_HEAD, PAGE);
        status = f[15]; // of a PIO Setup the ending one
    } else if (reply(answer, " 34:20=", f, sizeof f)) {
        status = f[2];
    } else {
        io->host_status = TIMED_OUT, io->info = SG_INFO_CHECK;
        return;
    }
    if ((status & 1) != 0) {
        tell_registers(io, ABORTED, 0, status, f);
    } else if ((io->cmdp[2] & 0x20) != 0) {
        // CK_COND: the registers are asked for behind a command that went well, too
        tell_registers(io, RECOVERED, 0x1D, status, f);
    }
}

static int sg_io(sg_io_hdr_t *io) {
    static const uint8_t inquiry[] = "\0\0\5\2\37\0\0\0ATA     MODULE          0   ";
    if (io->interface_id != 'S') {
        errno = EINVAL;
        return -1;
    }
    io->status = 0, io->masked_status = 0, io->host_status = 0, io->driver_status = 0;
    io->sb_len_wr = 0, io->resid = 0, io->info = 0, io->duration = 0;
    switch (io->cmdp[0]) {
    case 0x00: // TEST UNIT READY
        break;
    case 0x12: // INQUIRY, but for the pages that it may ask for
        if ((io->cmdp[1] & 1) == 0) hand_over(io, inquiry, sizeof inquiry - 1);
        else refuse(io, 0x24);
        break;
    case 0x85:
    case 0xA1:
        ata_command(io);
        break;
    default:
        refuse(io, 0x20);
    }
    return 0;
}

int ioctl(int fd, unsigned long request, ...) {
    va_list rest;
    va_start(rest, request);
    void *asked = va_arg(rest, void *);
    va_end(rest);
    if (!is_drive(fd)) return (int)syscall(SYS_ioctl, fd, request, asked);
    if (request == SG_IO) return sg_io(asked);
    if (request == SG_GET_VERSION_NUM) {
        *(int *)asked = 30000; // the third interface of SG_IO
        return 0;
    }
    errno = ENOTTY;
    return -1;
}
