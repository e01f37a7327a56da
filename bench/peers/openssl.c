// OpenSSL's digests in memory: the algorithm is looked up once, and its context is used again.
#include <openssl/evp.h>
#include <stddef.h>
#include <stdint.h>

static EVP_MD_CTX *context;
static EVP_MD *blake2b;
static EVP_MD *blake2s;

static void digest(const EVP_MD *algorithm, const uint8_t *message, size_t length, uint8_t *out)
{
    EVP_DigestInit_ex(context, algorithm, NULL);
    EVP_DigestUpdate(context, message, length);
    EVP_DigestFinal_ex(context, out, NULL);
}

__attribute__((constructor)) static void look_up(void)
{
    context = EVP_MD_CTX_new();
    blake2b = EVP_MD_fetch(NULL, "BLAKE2B-512", NULL);
    blake2s = EVP_MD_fetch(NULL, "BLAKE2S-256", NULL);
}

void blake2b512(const uint8_t *message, size_t length, uint8_t *out)
{
    digest(blake2b, message, length, out);
}

void blake2s256(const uint8_t *message, size_t length, uint8_t *out)
{
    digest(blake2s, message, length, out);
}
