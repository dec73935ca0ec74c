/* The version of the package, as the backend has it of rtp_wire.h. */
const char *package_version(void) {
    return PACKAGE_VERSION;
}
