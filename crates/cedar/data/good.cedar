// Who may look at a photo.
@id("owner")
permit (principal, action == Action::"view", resource)
when { resource.owner == principal }; // and nobody else

forbid (principal, action, resource)
unless { context.authenticated };
