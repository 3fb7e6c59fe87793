.class interface abstract Li/Two;
.super Ljava/lang/Object;
.implements Li/One;

.field public static final NAME:Ljava/lang/String; = "two"

.method public abstract two()V
.end method
