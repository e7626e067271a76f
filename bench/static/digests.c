/* Digests and ciphers of libcrypto over the input, in hexadecimal digits. */
#include <openssl/evp.h>
#include <stdio.h>
#include <string.h>

enum { MOST = 4096 };

static unsigned char data[MOST + 64], made[MOST + 128];

static void print(const char *name, const unsigned char *bytes, int count) {
    printf("%s ", name);
    for (int at = 0; at < count; at++)
        printf("%02x", bytes[at]);
    putchar('\n');
}

static int digest(const char *name, size_t count) {
    unsigned length = 0;
    const EVP_MD *way = EVP_get_digestbyname(name);
    if (!way || !EVP_Digest(data, count, made, &length, way, NULL))
        return 1;
    print(name, made, (int)length);
    return 0;
}

static int encrypt(const char *name, size_t count) {
    static const unsigned char KEY[] = "0123456789abcdef0123456789abcdef", FIRST[] = "fedcba9876543210";
    EVP_CIPHER_CTX *context = EVP_CIPHER_CTX_new();
    const EVP_CIPHER *way = EVP_get_cipherbyname(name);
    int length = 0, rest = 0;
    if (!context || !way || !EVP_EncryptInit_ex(context, way, NULL, KEY, FIRST) ||
        !EVP_EncryptUpdate(context, made, &length, data, (int)count) || !EVP_EncryptFinal_ex(context, made + length, &rest))
        return 1;
    print(name, made, length + rest);
    EVP_CIPHER_CTX_free(context);
    return 0;
}

int main(void) {
    static const char *const DIGESTS[] = { "SHA1", "SHA256", "SHA512", "MD5", "SHA3-256", "BLAKE2b512" };
    static const char *const CIPHERS[] = { "AES-128-CBC", "AES-256-CTR", "CAMELLIA-128-CBC", "CAMELLIA-256-ECB", "DES-EDE3-CBC", "CHACHA20" };
    size_t count = fread(data, 1, MOST, stdin);
    int wrong = 0;
    for (size_t at = 0; at < sizeof DIGESTS / sizeof *DIGESTS; at++)
        wrong += digest(DIGESTS[at], count);
    for (size_t at = 0; at < sizeof CIPHERS / sizeof *CIPHERS; at++)
        wrong += encrypt(CIPHERS[at], count);
    return wrong;
}
