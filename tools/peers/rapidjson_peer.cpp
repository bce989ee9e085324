// rapidjson_peer SCHEMA INSTANCE REPEATS: reads two files once, and validates the instance so often. Ends with 0 where each answer is that
// the instance is accepted, with 1 where each refuses it, with 3 for words or files that are wrong.

#include <cstdio>
#include <cstdlib>
#include <fstream>
#include <iostream>
#include <sstream>

#include <rapidjson/document.h>
#include <rapidjson/schema.h>

static bool read(const char *path, rapidjson::Document &document)
{
    std::ifstream file(path);
    std::stringstream text;
    text << file.rdbuf();
    return file && !document.Parse(text.str().c_str()).HasParseError();
}

int main(int count, char **words)
{
    rapidjson::Document schema_document, instance;
    if (count != 4 || !read(words[1], schema_document) || !read(words[2], instance)) {
        std::cerr << "rapidjson_peer SCHEMA INSTANCE REPEATS\n";
        return 3;
    }
    const long repeats = std::atol(words[3]);

    rapidjson::SchemaDocument schema(schema_document);
    rapidjson::SchemaValidator validator(schema);
    long accepted = 0;
    for (long k = 0; k < repeats; ++k) {
        validator.Reset();
        accepted += instance.Accept(validator) ? 1 : 0;
    }
    return accepted == repeats ? 0 : accepted == 0 ? 1 : 3;
}
