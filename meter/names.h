/* How the name of a file is written: for people, in CSV, in JSON and in XML. A name is any bytes but 0 and
 * `/`, so it may hold a line end, or bytes that are no text. None of them ends a line or a field early, and
 * the bytes of the name can be had back from each of the first three. */
#ifndef NAMES_H
#define NAMES_H

#include <stdbool.h>
#include <stdio.h>
#include <string.h>

/* For people. A name with a control byte (below 0x20, or 0x7f), a double quote or a backslash stands in
 * double quotes, with \n, \t, \", \\ and for other control bytes \xHH; any other name as it is, blanks
 * included. So it stands last in a line: a name that begins with a quote ends with the next bare one, any
 * other with the line. */
static inline void name_plain(FILE *out, const char *name) {
    const unsigned char *s = (const unsigned char *)name;
    bool quoted = false;

    for (; *s; s++)
        quoted = quoted || *s < 0x20 || *s == 0x7f || *s == '"' || *s == '\\';
    if (!quoted) {
        fputs(name, out);
        return;
    }
    putc('"', out);
    for (s = (const unsigned char *)name; *s; s++) {
        if (*s == '\n' || *s == '\t')
            fputs(*s == '\n' ? "\\n" : "\\t", out);
        else if (*s < 0x20 || *s == 0x7f)
            fprintf(out, "\\x%02X", *s);
        else if (*s == '"' || *s == '\\')
            fprintf(out, "\\%c", *s);
        else
            putc(*s, out);
    }
    putc('"', out);
}

/* A field of text by RFC 4180: one with a comma, a double quote or a line end stands in double quotes,
 * and double quotes in it are doubled; every other byte is as it is. */
static inline void text_csv(FILE *out, const char *text) {
    if (!strpbrk(text, ",\"\r\n")) {
        fputs(text, out);
        return;
    }
    putc('"', out);
    for (; *text; text++) {
        if (*text == '"')
            putc('"', out);
        putc(*text, out);
    }
    putc('"', out);
}

/* How many bytes the character at s has where it is one in UTF-8 (no longer than it need be, no
 * surrogate, not above U+10FFFF), else 0. The 0 at the end of a text belongs to no longer character, so
 * nothing after it is looked at. */
static inline int utf8_length(const unsigned char *s) {
    unsigned char low = s[0] == 0xe0 ? 0xa0 : s[0] == 0xf0 ? 0x90 : 0x80;
    unsigned char high = s[0] == 0xed ? 0x9f : s[0] == 0xf4 ? 0x8f : 0xbf;
    int i, length = s[0] < 0xe0 ? 2 : s[0] < 0xf0 ? 3 : 4;

    if (s[0] < 0x80)
        return 1;
    if (s[0] < 0xc2 || s[0] > 0xf4 || s[1] < low || s[1] > high)
        return 0;
    for (i = 2; i < length; i++)
        if ((s[i] & 0xc0) != 0x80)
            return 0;
    return length;
}

/* A text of JSON. A byte XX that is part of no character in UTF-8 becomes \udcXX, half of a surrogate
 * pair that no real text has. That is what Python's os.fsdecode makes of it, and os.fsencode of the text
 * gives the bytes back. */
static inline void text_json(FILE *out, const char *text) {
    const unsigned char *s = (const unsigned char *)text;
    int length;

    putc('"', out);
    for (; *s; s += length ? length : 1) {
        length = utf8_length(s);
        if (length == 0)
            fprintf(out, "\\udc%02x", *s);
        else if (*s < 0x20 || *s == 0x7f)
            fprintf(out, "\\u%04x", *s);
        else if (*s == '"' || *s == '\\')
            fprintf(out, "\\%c", *s);
        else
            fwrite(s, 1, (size_t)length, out);
    }
    putc('"', out);
}

/* A text of XML, in UTF-8. XML has no place for control characters nor for U+FFFE and U+FFFF: like bytes that are part
 * of no character they become U+FFFD, which stands for what cannot be shown. */
static inline void text_xml(FILE *out, const char *text) {
    const unsigned char *s = (const unsigned char *)text;
    int length;

    for (; *s; s += length ? length : 1) {
        length = utf8_length(s);
        if (length == 0 || *s < 0x20 || *s == 0x7f || (length == 3 && s[0] == 0xef && s[1] == 0xbf && s[2] >= 0xbe))
            fputs("&#xFFFD;", out);
        else if (*s == '&' || *s == '<' || *s == '>')
            fputs(*s == '&' ? "&amp;" : *s == '<' ? "&lt;" : "&gt;", out);
        else
            fwrite(s, 1, (size_t)length, out);
    }
}

#endif
