.class public interface abstract annotation Le/Marks;
.super Ljava/lang/Object;
.implements Ljava/lang/annotation/Annotation;

.method public abstract value()I
.end method
