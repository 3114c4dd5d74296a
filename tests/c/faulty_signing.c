/* Loaded into a program before libcrypto: with SIGNING_SECONDS=N, which may have a fraction, each signature takes so
   long, and with SIGNING_IS_WRONG its last octet is another. With NO_NETLINK the kernel
   can't be asked for its sockets. */
#include <dlfcn.h>
#include <errno.h>
#include <openssl/evp.h>
#include <stdlib.h>
#include <sys/socket.h>
#include <sys/syscall.h>
#include <unistd.h>

int socket(int family, int kind, int protocol) {
  if (family != AF_NETLINK || !getenv("NO_NETLINK")) return (int)syscall(SYS_socket, family, kind, protocol);
  errno = EAFNOSUPPORT;
  return -1;
}

int EVP_DigestSign(EVP_MD_CTX *context, unsigned char *signature, size_t *length, const unsigned char *text,
                   size_t text_length) {
  int (*sign)(EVP_MD_CTX *, unsigned char *, size_t *, const unsigned char *, size_t);
  *(void **)&sign = dlsym(RTLD_NEXT, "EVP_DigestSign");
  const char *seconds = getenv("SIGNING_SECONDS");
  if (seconds) usleep((useconds_t)(1e6 * atof(seconds)));
  int done = sign(context, signature, length, text, text_length);
  if (done == 1 && signature && getenv("SIGNING_IS_WRONG")) signature[*length - 1] ^= 1;
  return done;
}
