.class public interface abstract Li/One;
.super Ljava/lang/Object;

.method public abstract one(IJLjava/lang/String;[I)Ljava/lang/Object;
.end method
