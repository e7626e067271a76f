/* Decodes the bytes of a file by Zydis, without operands, from the first to the last and again, and a byte further where that fails:
   decodings FILE COUNT. gcc -O2 -o decodings decodings.c -lZydis */
#include <Zydis/Zydis.h>
#include <stdio.h>
#include <stdlib.h>

enum { MOST = 1 << 24 };

int main(int count, char **words) {
    static ZyanU8 bytes[MOST];
    ZydisDecoder decoder;
    ZydisDecoderContext context;
    ZydisDecodedInstruction instruction;
    FILE *file = count == 3 ? fopen(words[1], "rb") : NULL;
    if (!file)
        return 2;
    size_t length = fread(bytes, 1, sizeof bytes, file), at = 0;
    long sum = 0;
    ZydisDecoderInit(&decoder, ZYDIS_MACHINE_MODE_LONG_64, ZYDIS_STACK_WIDTH_64);
    for (long left = atol(words[2]); left > 0; left--) {
        if (at >= length)
            at = 0;
        ZyanStatus found = ZydisDecoderDecodeInstruction(&decoder, &context, bytes + at, length - at, &instruction);
        unsigned passed = ZYAN_SUCCESS(found) ? instruction.length : 1;
        at += passed;
        sum += passed;
    }
    return printf("%ld\n", sum) < 0;
}
