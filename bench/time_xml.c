/* time_xml.c: load and write beside two known parsers, expat and libxml2. They read more of XML than the subset. */
#include <stdio.h>
#include <stdlib.h>
#include <string.h>

#include <expat.h>
#include <libxml/parser.h>
#include <libxml/tree.h>

#include "timing.h"

/* The states of all engines lie alike: each has whole pages. */
enum { SAMPLES = 301, STATE_ROOM = (NOODLEFEN_STATE_BYTES + 4095) / 4096 * 4096 };

static unsigned long seen; /* so that the handlers do something */

static void on_start(void *data, const XML_Char *name, const XML_Char **attributes)
{
    (void)data;
    seen += (unsigned char)name[0];
    for (; *attributes != NULL; attributes += 2)
        seen += (unsigned char)attributes[1][0];
}

static void on_end(void *data, const XML_Char *name)
{
    (void)data;
    seen += (unsigned char)name[0];
}

static void on_text(void *data, const XML_Char *text, int length)
{
    (void)data;
    seen += (unsigned)length + (unsigned char)text[0];
}

static void read_by_expat(const char *xml, size_t length)
{
    XML_Parser parser = XML_ParserCreate(NULL);
    XML_SetElementHandler(parser, on_start, on_end);
    XML_SetCharacterDataHandler(parser, on_text);
    if (XML_Parse(parser, xml, (int)length, 1) != XML_STATUS_OK)
        exit(1);
    XML_ParserFree(parser);
}

static xmlDocPtr read_by_libxml2(const char *xml, size_t length)
{
    xmlDocPtr document = xmlReadMemory(xml, (int)length, NULL, NULL, XML_PARSE_NONET);
    if (document == NULL)
        exit(1);
    return document;
}

struct times {
    double load[MOST_ENGINES], write[MOST_ENGINES], expat, libxml2, libxml2_write; /* 0 of an engine that does not read the document */
    size_t written; /* the length of what write gave */
};

static void time_document(const char *xml, size_t length, struct times *times)
{
    static uint8_t state[MOST_ENGINES][STATE_ROOM], out[NOODLEFEN_XML_BYTES];
    static double load[MOST_ENGINES][SAMPLES], write[MOST_ENGINES][SAMPLES], expat[SAMPLES], libxml2[SAMPLES], dump[SAMPLES];
    int engines = timed_count;
    for (int e = 0; e < timed_count; e++) {
        must_grant(timed_engines[e].name, "start", timed_engines[e].start(state[e], NOODLEFEN_STATE_BYTES));
        times->load[e] = times->write[e] = 0;
    }
    /* A library from before may not read what the others read. */
    if (timed_count > BEFORE
        && !noodlefen_granted(timed_engines[BEFORE].load(state[BEFORE], NOODLEFEN_STATE_BYTES, (const uint8_t *)xml, length)))
        engines = BEFORE;
    for (int i = 0; i < SAMPLES; i++) {
        double from;
        for (int turn = 0; turn < engines; turn++) {
            int e = engines > BEFORE ? engine_at(turn, i) : turn;
            const struct timed *engine = &timed_engines[e];
            from = now();
            noodlefen_answer answer = engine->load(state[e], NOODLEFEN_STATE_BYTES, (const uint8_t *)xml, length);
            load[e][i] = now() - from;
            must_grant(engine->name, "load", answer);
            from = now();
            answer = engine->write(state[e], NOODLEFEN_STATE_BYTES, out, sizeof out);
            write[e][i] = now() - from;
            must_grant(engine->name, "write", answer);
            times->written = noodlefen_value(answer);
        }
        from = now();
        read_by_expat(xml, length);
        expat[i] = now() - from;
        from = now();
        xmlDocPtr document = read_by_libxml2(xml, length);
        libxml2[i] = now() - from;
        xmlChar *written;
        int written_length;
        from = now();
        xmlDocDumpMemory(document, &written, &written_length);
        dump[i] = now() - from;
        xmlFree(written);
        xmlFreeDoc(document);
    }
    for (int e = 0; e < engines; e++) {
        times->load[e] = median(load[e], SAMPLES);
        times->write[e] = median(write[e], SAMPLES);
    }
    times->expat = median(expat, SAMPLES);
    times->libxml2 = median(libxml2, SAMPLES);
    times->libxml2_write = median(dump, SAMPLES);
}

static void print_row(const char *what, const char *name, size_t length, const double *engines, double expat, double libxml2)
{
    const double ours = engines[timed_count > LIBRARY ? LIBRARY : C_ENGINE];
    printf("%-6s%-16s%8lu%10.2f", what, name, (unsigned long)length, engines[C_ENGINE] / 1000);
    if (timed_count > LIBRARY)
        printf("%10.2f", engines[LIBRARY] / 1000);
    if (expat > 0)
        printf("%10.2f%10.2f", expat / 1000, libxml2 / 1000);
    else
        printf("%10s%10.2f", "", libxml2 / 1000);
    if (timed_count > LIBRARY)
        printf("%12.2f", ours / engines[C_ENGINE]);
    if (expat > 0)
        printf("%12.2f%12.2f", ours / expat, ours / libxml2);
    else
        printf("%12s%12.2f", "", ours / libxml2);
    if (timed_count > BEFORE && engines[BEFORE] > 0)
        printf("%18.2f", engines[BEFORE] / ours);
    else if (timed_count > BEFORE)
        printf("%18s", "not read before");
    printf("\n");
}

static void print_document(const char *name, const char *xml, size_t length)
{
    struct times times;
    time_document(xml, length, &times);
    print_row("load", name, length, times.load, times.expat, times.libxml2);
    print_row("write", name, times.written, times.write, 0, times.libxml2_write);
}

/* One element with as many attributes as it can have. The names agree in their first 28 bytes and come in no order. */
static size_t attribute_document(char *out)
{
    enum { ATTRIBUTES = 1022, STEP = 389 }; /* no common divisor */
    char *at = out + sprintf(out, "<?xml version=\"1.0\" encoding=\"UTF-8\"?>\n<drive");
    for (unsigned i = 0; i < ATTRIBUTES; i++)
        at += sprintf(at, " speed-of-the-drive-interval-%04u=\"\"", i * STEP % ATTRIBUTES);
    at += sprintf(at, "/>");
    return (size_t)(at - out);
}

/* Documents of 1,022 nodes in other letters: two bytes each in Greek, three in Japanese. Their names are names in all editions of XML 1.0,
 * for expat follows the Fourth. */
static size_t greek_document(char *out)
{
    char *at = out + sprintf(out, "<?xml version=\"1.0\" encoding=\"UTF-8\"?>\n<τελεφερίκ>");
    for (unsigned i = 0; i < 204; i++)
        at += sprintf(at, "<κίνηση αριθμός=\"θέση %u\"><ταχύτητα>έξι μέτρα</ταχύτητα></κίνηση>", i);
    at += sprintf(at, "</τελεφερίκ>");
    return (size_t)(at - out);
}

static size_t japanese_document(char *out)
{
    char *at = out + sprintf(out, "<?xml version=\"1.0\" encoding=\"UTF-8\"?>\n<索道>");
    for (unsigned i = 0; i < 204; i++)
        at += sprintf(at, "<駆動装置 番号=\"第%u号\"><最高速度>毎秒六メートル</最高速度></駆動装置>", i);
    at += sprintf(at, "</索道>");
    return (size_t)(at - out);
}

void time_xml(const char *settings_path)
{
    static char xml[NOODLEFEN_XML_BYTES];
    static const unsigned sizes[] = {16, 128, 1024};
    const char *ours = timed_count > LIBRARY ? "library" : "C engine";
    printf("load and write, microseconds; ratios are %s / other\n%-22s%8s%10s", ours, "", "bytes", "C engine");
    if (timed_count > LIBRARY)
        printf("%10s", "library");
    printf("%10s%10s", "expat", "libxml2");
    if (timed_count > LIBRARY)
        printf("%12s", "/ C engine");
    printf("%12s%12s", "/ expat", "/ libxml2");
    if (timed_count > BEFORE)
        printf("%18s", "before / library");
    printf("\n");
    for (int i = 0; i < 3; i++) {
        char name[32];
        sprintf(name, "%u nodes", sizes[i]);
        print_document(name, xml, tree_document(xml, sizes[i]));
    }
    print_document("64 KB input", xml, long_document(xml));
    print_document("1022 attributes", xml, attribute_document(xml));
    print_document("Greek", xml, greek_document(xml));
    print_document("Japanese", xml, japanese_document(xml));
    FILE *file = fopen(settings_path, "rb");
    if (file != NULL) {
        size_t length = fread(xml, 1, sizeof xml, file);
        fclose(file);
        print_document("settings.xml", xml, length);
    }
    xmlCleanupParser();
    if (seen == 0)
        printf("expat saw nothing\n");
}
