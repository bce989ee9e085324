// valijson_peer SCHEMA INSTANCE REPEATS: reads two files once, and validates the instance so often. Ends with 0 where each answer is that
// the instance is accepted, with 1 where each refuses it, with 3 for words or files that are wrong.

#include <cstdlib>
#include <iostream>

#include <rapidjson/document.h>

#include <valijson/adapters/rapidjson_adapter.hpp>
#include <valijson/schema.hpp>
#include <valijson/schema_parser.hpp>
#include <valijson/utils/rapidjson_utils.hpp>
#include <valijson/validator.hpp>

int main(int count, char **words)
{
    using valijson::adapters::RapidJsonAdapter;

    rapidjson::Document schema_document, instance;
    if (count != 4 || !valijson::utils::loadDocument(words[1], schema_document) ||
            !valijson::utils::loadDocument(words[2], instance)) {
        std::cerr << "valijson_peer SCHEMA INSTANCE REPEATS\n";
        return 3;
    }
    const long repeats = std::atol(words[3]);

    valijson::Schema schema;
    valijson::SchemaParser parser;
    RapidJsonAdapter schema_adapter(schema_document);
    parser.populateSchema(schema_adapter, schema);

    valijson::Validator validator;
    RapidJsonAdapter adapter(instance);
    long accepted = 0;
    for (long k = 0; k < repeats; ++k) {
        accepted += validator.validate(schema, adapter, nullptr) ? 1 : 0;
    }
    return accepted == repeats ? 0 : accepted == 0 ? 1 : 3;
}
