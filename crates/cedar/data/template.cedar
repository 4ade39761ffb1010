@note("a \"b\"")
permit (principal == ?principal, action, resource in ?resource);
